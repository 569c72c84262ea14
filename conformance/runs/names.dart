main() { var _a1 = 1; var mainly = 2; var printer = 3; var variable = 4; var INT = 5; print(_a1 + mainly + printer + variable + INT + _a1); }
