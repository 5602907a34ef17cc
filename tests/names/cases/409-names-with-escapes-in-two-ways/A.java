class \u0041\uuu0062 {
    Ab same = new \u0041b();
    java.\u0075til.List<Ab> list;
}
