
isolation;
