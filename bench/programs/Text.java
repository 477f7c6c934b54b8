/** Texts: numbers appended to string builders, and the characters of what they give. */
public class Text {
    public static void main(String[] arguments) {
        int sum = 0;
        for (int round = 0; round < 300; round++) {
            StringBuilder builder = new StringBuilder();
            for (int number = 0; number < 10; number++) {
                builder.append(number * round).append(';');
            }
            String text = builder.toString();
            for (int at = 0; at < text.length(); at++) {
                sum = sum * 31 + text.charAt(at);
            }
        }
        System.out.println(sum);
    }
}
