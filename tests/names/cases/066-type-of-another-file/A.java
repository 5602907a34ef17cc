class A extends C {
    B.M first;
    M second;
}
