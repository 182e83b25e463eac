table num (id int) key (id);
proc p() { insert num (((((((((((((((((1))))))))))))))))); }
