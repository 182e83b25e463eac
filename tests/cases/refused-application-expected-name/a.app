proc p() { let = 1; }
