/** Numbers read from text, with what is no number told apart, and a calculator that takes operands before their operator. */
public class Main {
    static String parsed(String text) {
        try {
            return "" + Integer.parseInt(text);
        } catch (NumberFormatException e) {
            return "none";
        }
    }

    static boolean isOperator(String word) {
        return word.length() == 1 && (word.charAt(0) < '0' || word.charAt(0) > '9');
    }

    static int applied(char operator, int left, int right) {
        switch (operator) {
            case '+': return left + right;
            case '-': return left - right;
            case '*': return left * right;
            case '/': return left / right;
            case '%': return left % right;
            case '<': return left << right;
            case '>': return left >> right;
            case '&': return left & right;
            case '|': return left | right;
            case '^': return left ^ right;
            default: throw new IllegalArgumentException("operator " + operator);
        }
    }

    static int calculated(String line) {
        int[] stack = new int[8];
        int top = 0, start = 0;
        for (int end = 0; end <= line.length(); end++) {
            if (end == line.length() || line.charAt(end) == ' ') {
                String word = line.substring(start, end);
                if (isOperator(word)) {
                    top--;
                    stack[top - 1] = applied(word.charAt(0), stack[top - 1], stack[top]);
                } else {
                    stack[top++] = Integer.parseInt(word);
                }
                start = end + 1;
            }
        }
        if (top != 1) {
            throw new IllegalStateException(top + " values are left");
        }
        return stack[0];
    }

    public static void main(String[] args) {
        String[] texts = {"0", "-0", "+0", "7", "+7", "-7", "007", "2147483647", "2147483648", "-2147483648", "-2147483649", "99999999999", "000000000000000012",
            "", "+", "-", "+-1", " 1", "1 ", "1.0", "1e3", "0x10", "1_000", "ten", null};
        for (String text : texts) {
            System.out.println("[" + text + "] " + parsed(text));
        }
        String[] lines = {"1 2 + 3 *", "2147483647 1 +", "100 7 / 100 7 % -", "-17 5 / -17 5 %", "-17 5 % -17 5 / *", "1 31 < 1 -", "-1 28 >", "12 10 & 12 10 | ^",
            "5 0 /", "5 +", "1 2 3 4 5 6 7 8 9", "4 x", "4 2 ?", "12 twelve +", "3  4 +", "65536 65536 *", "10 20 30 40 - + *"};
        for (String line : lines) {
            String answer;
            try {
                answer = "= " + calculated(line);
            } catch (ArithmeticException e) {
                answer = "divides by nothing";
            } catch (NumberFormatException e) {
                answer = "has no number where one is due";
            } catch (IndexOutOfBoundsException e) {
                answer = "has too few or too many operands";
            } catch (IllegalArgumentException | IllegalStateException e) {
                answer = "is wrong: " + e.getMessage();
            }
            System.out.println(line + " " + answer);
        }
    }
}
