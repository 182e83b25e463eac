proc p() { let aaaaaaaaaaaaaaaaaaaaaaaaaaaaaaaaa = 1; }
