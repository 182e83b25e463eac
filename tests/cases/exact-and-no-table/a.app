isolation exact;
