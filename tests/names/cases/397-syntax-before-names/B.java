class B {
    int }
