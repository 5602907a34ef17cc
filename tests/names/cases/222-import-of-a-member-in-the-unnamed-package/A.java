import B.M;
class A { M field; }
