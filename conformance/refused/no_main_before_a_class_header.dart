class A extends int {}
