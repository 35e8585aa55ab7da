using GLib;

namespace Shapes {
  public class Shape : Object {
    public string name { get; set; }
    private int sides;

    public Shape (string name, int sides) {
      this.name = name;
      this.sides = sides;
    }

    public virtual int count () {
      int sum = 0;
      for (int i = 0; i < sides; i++) {
        sum += i;
      }
      return sum;
    }
  }
}

void main () {
  var shape = new Shapes.Shape ("square", 4);
  print ("%s: %d\n", shape.name, shape.count ());
}
