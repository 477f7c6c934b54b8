package hiding;

/** Fields of an interface that no constant stands for. */
public interface Named extends Numbered {
    String TITLE = new StringBuilder().append("title").append(1).toString();
    Object LOCK = new Object();
}
