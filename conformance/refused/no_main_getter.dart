get main => 1;
