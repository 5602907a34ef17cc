class Ä {
}

class 𠀀 {
}

class Main {
    public static void main(String[] args) {
        System.out.println(new Ä().toString().indexOf('@'));
        System.out.println(new 𠀀().toString().indexOf('@'));
        System.out.println((int) new Ä().toString().charAt(0));
    }
}
