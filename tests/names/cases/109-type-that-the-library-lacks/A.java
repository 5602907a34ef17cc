class A implements Runnable { public void run() { } }
