// taken
class A { String s = "é 中 𝄞"; /* € */ char c = '€'; }
