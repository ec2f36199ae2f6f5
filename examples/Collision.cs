// Collision ground from a reader's rows, as an engine in C# would load it: band rows in the order that the reader wants, height rows as they come, each one
// at once a strip of two triangles a cell. Every machine gets the same ground, so the same wheel stands at the same height.
//   mcs -unsafe examples/Collision.cs bindings/csharp/Terrain.cs -out:target/Collision.exe
//   LD_LIBRARY_PATH=target/ports/lib/x86_64-linux mono target/Collision.exe
using System;
using Terrain;

sealed class Ground
{
    readonly int width, height;
    readonly ushort[] heights;
    int rows;

    public Ground(int width, int height)
    {
        this.width = width;
        this.height = height;
        heights = new ushort[width * height];
    }

    public bool Whole { get { return rows == height; } }

    public void Add(ushort[] row) { Array.Copy(row, 0, heights, width * rows++, width); }

    // The ground's height in 1/65,536 of a step at a place in 1/256 of a cell, in whole numbers: no machine rounds otherwise.
    public long At(int x, int y)
    {
        int column = Math.Min(x >> 8, width - 2), row = Math.Min(y >> 8, height - 2), at = row * width + column;
        int right = x - (column << 8), down = y - (row << 8);
        long a = heights[at], b = heights[at + 1], c = heights[at + width], d = heights[at + width + 1];
        // the cell's two triangles meet on the way from its upper right to its lower left corner
        if (right + down <= 256) return (a << 16) + ((b - a) * right + (c - a) * down << 8);
        return (d << 16) + ((c - d) * (256 - right) + (b - d) * (256 - down) << 8);
    }
}

static class Collision
{
    // A map of the example's own, and the plane that its file would hold.
    static int[] Plane(Shape shape)
    {
        ushort[] heights = new ushort[shape.Width * shape.Height];
        for (int i = 0; i < heights.Length; i++)
        {
            long x = i % shape.Width, y = i / shape.Width;
            heights[i] = (ushort)(20000 + 60 * x - 45 * y + x * y % 97);
        }
        return Map.Forward(heights, shape);
    }

    static Ground Load(Shape shape, int[] plane)
    {
        Ground ground = new Ground((int)shape.Width, (int)shape.Height);
        Reader reader = new Reader(shape);
        ushort[] row = new ushort[shape.Width];
        BandRow wanted;
        for (Want want = reader.Want(out wanted); want == Want.Row || want == Want.Draw; want = reader.Want(out wanted))
        {
            if (want == Want.Row) reader.Feed(Map.Row(plane, shape, wanted));
            else { reader.Draw(row); ground.Add(row); }
        }
        return ground;
    }

    static void Main()
    {
        Shape shape = new Shape(65, 65, 5);
        Ground ground = Load(shape, Plane(shape));
        Console.WriteLine(ground.Whole ? "all rows came" : "rows are missing");
        Console.WriteLine("a wheel at 12.5, 30.25 stands at {0}/65536", ground.At(12 * 256 + 128, 30 * 256 + 64));
    }
}
