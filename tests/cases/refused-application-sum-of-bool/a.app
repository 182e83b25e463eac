proc p() { let a = 1 + true; }
