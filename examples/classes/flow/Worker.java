package flow;

/** A thread, with a monitor. */
public class Worker extends Thread {
    private boolean done;

    Worker(Runnable target) {
        super(target);
    }

    @Override
    public void run() {
        super.run();
        synchronized (this) {
            done = true;
            notifyAll();
        }
    }

    synchronized void await() throws InterruptedException {
        while (!done) {
            wait();
        }
    }

    static void all() throws InterruptedException {
        Worker worker = new Worker(new Worker(null));
        worker.start();
        worker.await();
        worker.join();
        Thread.currentThread().join();
    }
}
