class B extends C { M field; }
