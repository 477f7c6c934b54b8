package statics;

/** Calls inherited static methods and reads inherited static fields through its own name. */
public class Special extends Product implements Factory {
    Special(int number) {
        super(number);
    }

    @Override
    public Special make(int number) {
        return new Special(number + Special.made);
    }

    static int all() {
        return Special.count() + Special.shared().number + Factory.made(1).number + new Special(2).make(3).number;
    }
}
