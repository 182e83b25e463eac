proc p() { if true { if true { if true { if true { if true { if true { if true { if true { if true { if true { if true { if true { if true { if true { if true { } } } } } } } } } } } } } } } }
