isolation exact;
isolation exact;
