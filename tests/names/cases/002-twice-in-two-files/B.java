class Y { }
interface X { }
