interface I extends Object { }
