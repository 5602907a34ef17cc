import B.*;
class A { M field; }
