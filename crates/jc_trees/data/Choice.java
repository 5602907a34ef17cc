a = b ? c : (int) d
