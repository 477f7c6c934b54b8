/** A ledger that refuses what it can't book: an exception of the program's own class passes each block on its way, and is caught by nobody. */
public class Main extends Exception {
    static final String[] NAMES = {"till", "bank", "rent"};
    static long[] balances = {500, 12000, 0};
    static int booked;
    final int account;

    Main(String message, int account, Throwable cause) {
        super(message, cause);
        this.account = account;
    }

    /** What is left on the account. */
    static long take(int account, long amount) throws Main {
        if (balances[account] < amount) {
            throw new Main(NAMES[account] + " has " + balances[account] + ", and " + amount + " is asked for", account, null);
        }
        return balances[account] -= amount;
    }

    /** A booking is done whole or not at all. */
    static void book(int from, int to, long amount) throws Main {
        long before = balances[to];
        boolean done = false;
        try {
            balances[to] += amount;
            take(from, amount);
            done = true;
        } finally {
            if (!done) {
                balances[to] = before;
                System.out.println("undone");
            }
        }
        booked++;
    }

    static void bookAll(int[] orders) throws Main {
        for (int i = 0; i < orders.length; i += 3) {
            try {
                book(orders[i], orders[i + 1], orders[i + 2]);
                System.out.println(NAMES[orders[i]] + " to " + NAMES[orders[i + 1]] + ": " + orders[i + 2]);
            } catch (Main e) {
                throw new Main("order " + i / 3 + " of " + NAMES[e.account] + " is refused", e.account, e);
            } catch (RuntimeException e) {
                System.out.println("no such account");
            } finally {
                for (long balance : balances) {
                    System.out.print(balance);
                    System.out.print(' ');
                }
                System.out.println();
            }
        }
    }

    public static void main(String[] args) throws Main {
        int[] orders = {1, 0, 2500, 0, 2, 900, 0, 3, 5, -1, 2, 5, 2, 1, 900};
        bookAll(orders);
        try {
            bookAll(new int[] {2, 0, 1});
        } catch (Main e) {
            System.out.println(e.getMessage() + ": " + e.getCause().getMessage() + " " + (e.getCause().getCause() == null));
        }
        System.out.println(booked + " booked");
        bookAll(new int[] {0, 2, 100, 0, 2, 2001, 0, 2, 100});
        System.out.println("not reached");
    }
}
