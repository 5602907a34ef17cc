import java.util.ArrayList;
import java.util.HashMap;
import java.util.List;
import java.util.Map;

/** Objects, maps, lists and exceptions of their own together. */
class Bank {
    static class Short extends Exception {
        final long missing;
        Short(long missing) { super("missing " + missing); this.missing = missing; }
    }

    interface Rule { long fee(long amount); }

    static class Flat implements Rule { public long fee(long amount) { return 5; } }
    static class Share implements Rule {
        private final int percent;
        Share(int percent) { this.percent = percent; }
        public long fee(long amount) { return amount * percent / 100; }
    }

    static class Account {
        private final String name;
        private long balance;
        private final Rule rule;
        private final List<String> log = new ArrayList<String>();

        Account(String name, long balance, Rule rule) {
            this.name = name;
            this.balance = balance;
            this.rule = rule;
        }

        void take(long amount) throws Short {
            long all = amount + rule.fee(amount);
            if (all > balance) throw new Short(all - balance);
            balance -= all;
            log.add("-" + all);
        }

        void give(long amount) {
            if (amount < 0) throw new IllegalArgumentException(name);
            balance += amount;
            log.add("+" + amount);
        }
    }

    private final Map<String, Account> accounts = new HashMap<String, Account>();

    void open(String name, long balance, Rule rule) { accounts.put(name, new Account(name, balance, rule)); }

    boolean move(String from, String to, long amount) {
        Account source = accounts.get(from);
        try {
            source.take(amount);
            accounts.get(to).give(amount);
            return true;
        } catch (Short e) {
            Out.line(from + " " + e.getMessage() + " " + e.missing);
        } catch (NullPointerException e) {
            Out.line(source == null ? "no source" : "no target");
        } catch (IllegalArgumentException e) {
            Out.line("refused by " + e.getMessage());
        } finally {
            Out.line("moved " + amount);
        }
        return false;
    }

    public static void main(String[] args) {
        Bank bank = new Bank();
        bank.open("a", 1000, new Flat());
        bank.open("b", 50, new Share(10));
        Out.line(bank.move("a", "b", 300));
        Out.line(bank.move("b", "a", 400));
        Out.line(bank.move("x", "a", 1));
        Out.line(bank.move("a", "x", 1));
        Out.line(bank.move("a", "b", -1));
        for (String name : new String[] { "a", "b" }) {
            Account account = bank.accounts.get(name);
            Out.line(account.name + " " + account.balance);
            for (String line : account.log) Out.line(line);
        }
    }
}
