class A {
    {
        while (true) {
            break;
        }
        break;
    }
}
