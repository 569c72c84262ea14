class C { static var n = 1 ; final k ; C ( this . k ) ; operator + ( o ) => k + o ; }
