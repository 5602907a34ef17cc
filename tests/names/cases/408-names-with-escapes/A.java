class \u0041b { }
class A\u0062 { \u0041b same; }
