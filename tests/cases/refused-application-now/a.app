proc p() { let now = 1; }
