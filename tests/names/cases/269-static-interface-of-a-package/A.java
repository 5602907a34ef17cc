static interface I { }
