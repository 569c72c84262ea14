library p;
