Map<String, ? extends List<int[]>>.Entry[] x
