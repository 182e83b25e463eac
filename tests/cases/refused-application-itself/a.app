proc p() { let a = a; }
