package change.user;

import change.Api;
import change.Both;
import change.Lower;
import change.One;
import change.Twofold;
import change.Vanished;
import change.Visible;
import change.WasClass;
import change.WasInterface;

/** Classes that each use one thing of `change` in `run`, from another package. */
public class Users {
    public static class Kept {
        public static int run() {
            return new Api().kept() + new Api().kept;
        }
    }

    public static class FieldGone {
        public static int run() {
            return new Api().gone;
        }
    }

    public static class FieldRetyped {
        public static int run() {
            return new Api().retyped;
        }
    }

    public static class FieldHidden {
        public static int run() {
            return new Api().hidden;
        }
    }

    public static class FieldGuarded {
        public static int run() {
            return new Api().guarded;
        }
    }

    public static class FieldNear {
        public static int run() {
            return Api.near;
        }
    }

    public static class MethodGone {
        public static int run() {
            return new Api().gone();
        }
    }

    public static class MethodRetyped {
        public static int run() {
            return new Api().retyped(1);
        }
    }

    public static class MethodHidden {
        public static int run() {
            return new Api().hidden();
        }
    }

    public static class MethodGuarded {
        public static int run() {
            return Api.guarded();
        }
    }

    public static class MethodNear {
        public static int run() {
            return Api.near();
        }
    }

    public static class ConstructorGone {
        public static int run() {
            return new Api(1).kept;
        }
    }

    public static class GuardedBelow extends Api {
        public static int run() {
            return new GuardedBelow().guarded + guarded();
        }
    }

    public static class HiddenBelow extends Api {
        public static int run() {
            return new HiddenBelow().hidden();
        }
    }

    public static class NearBelow extends Api {
        public static int run() {
            return NearBelow.near;
        }
    }

    public static class FieldOfInterface {
        public static int run() {
            return Both.value;
        }
    }

    public static class MethodOfClass {
        public static int run() {
            return new Both().asked();
        }
    }

    public static class ClassHidden {
        public static int run() {
            return Visible.asked();
        }
    }

    public static class ClassOfFieldHidden {
        public static int run() {
            return Visible.value;
        }
    }

    public static class ArrayHidden {
        public static int run() {
            return new Visible[1].length;
        }
    }

    public static class ClassGone {
        public static int run() {
            return Vanished.asked();
        }
    }

    public static class ArrayGone {
        public static int run() {
            return new Vanished[1][2].length;
        }
    }

    public static class MethodOfInterface {
        public static int run() {
            return WasClass.asked();
        }
    }

    public static class FieldOfChanged {
        public static int run() {
            return WasClass.value;
        }
    }

    public static class InterfaceMethodOfClass {
        public static int run() {
            return WasInterface.asked();
        }
    }

    public static class BelowInterface extends WasClass {
        public static int run() {
            return 1;
        }
    }

    public static class OverClass implements WasInterface {
        public static int run() {
            return 1;
        }
    }

    public static class BelowHidden extends Visible {
        public static int run() {
            return 1;
        }
    }

    public static class BelowGone extends Vanished {
        public static int run() {
            return 1;
        }
    }

    public static class Circle {
        public static int run() {
            return One.asked();
        }
    }

    public static class BelowCircle extends One {
        public static int run() {
            return 1;
        }
    }

    public static class Twice {
        public static int run() {
            return new Twofold().told();
        }
    }

    public static class DeclaredAnew {
        public static int run() {
            return new Lower().asked() + Lower.value;
        }
    }
}
