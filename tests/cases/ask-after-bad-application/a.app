tables
