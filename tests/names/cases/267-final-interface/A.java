final interface I { }
