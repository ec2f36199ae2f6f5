// The check of bindings/check/check.c through Terrain.cs: it prints the same hash.
using System;
using System.Collections.Generic;
using System.Linq;
using Terrain;

static class Check
{
    static ulong seed = 7, hash = 0xcbf29ce484222325;

    static uint Below(uint n)
    {
        ulong z = seed += 0x9e3779b97f4a7c15;
        z = (z ^ (z >> 30)) * 0xbf58476d1ce4e5b9;
        z = (z ^ (z >> 27)) * 0x94d049bb133111eb;
        return (uint)(((z ^ (z >> 31)) >> 32) * n >> 32);
    }

    static void Add(ulong value) { hash = (hash ^ value) * 0x100000001b3; }

    static uint levels;

    static Shape SomeShape()
    {
        uint width = 1 + Below(40), height = 1 + Below(30), filter = Below(2);
        levels = 1 + Below(5 - filter);
        Shape shape = new Shape(width, height, levels);
        shape.Filter = filter;
        shape.X = (ushort)Below(65536);
        shape.Y = (ushort)Below(65536);
        return shape;
    }

    static int[] WholeMap(Shape shape, ushort[] heights)
    {
        for (int i = 0; i < heights.Length; i++) heights[i] = (ushort)Below(65536);
        int[] plane = Map.Forward(heights, shape);
        foreach (int value in plane) Add((uint)value);
        foreach (ushort height in Map.Backward(plane, shape)) Add(height);
        foreach (float value in Map.Profile(heights, (int)shape.Width)) Add(BitConverter.ToUInt32(BitConverter.GetBytes(value), 0));
        return plane;
    }

    static void Drawn(Writer writer)
    {
        int[] values = new int[64];
        for (BandRow row = writer.Draw(values); row.Level != 0; row = writer.Draw(values))
        {
            Add((ulong)row.Level); Add((ulong)row.Band); Add((ulong)row.Row);
            for (int i = 0; i < row.Length; i++) Add((uint)values[i]);
        }
    }

    static void Written(Shape shape, ushort[] heights)
    {
        Writer writer = new Writer(shape);
        for (int at = 0; at < heights.Length;)
        {
            int run = 1 + (int)Below((uint)(heights.Length - at)), taken = writer.Offer(new ArraySegment<ushort>(heights, at, run));
            Add((ulong)taken);
            at += taken;
            Drawn(writer);
        }
        writer.Finish();
        Drawn(writer);
    }

    // What it was fed, in that order.
    static int[] ReadBack(Reader reader, Shape shape, int[] plane)
    {
        ushort[] heights = new ushort[64];
        List<int> fed = new List<int>();
        for (;;)
        {
            BandRow row;
            Want want = reader.Want(out row);
            Add((ulong)want);
            if (want == Want.Row) { ArraySegment<int> values = Map.Row(plane, shape, row); reader.Feed(values); fed.AddRange(values); }
            else if (want == Want.Draw) { int n = reader.Draw(heights); for (int i = 0; i < n; i++) Add(heights[i]); }
            else return fed.ToArray();
        }
    }

    static int RunOn(Writer writer, ushort[] heights, int at)
    {
        int[] values = new int[64];
        Writer.Did did = new Writer.Did { Rows = 1 };
        while (at < heights.Length || did.Rows > 0)
        {
            int run = at < heights.Length ? 1 + (int)Below((uint)(heights.Length - at)) : 0;
            ulong[] names = new ulong[4 * (1 + Below(8))];
            did = writer.Run(new ArraySegment<ushort>(heights, at, run), values, names);
            at += did.Taken;
            Add((ulong)did.Taken); Add((ulong)did.Rows); Add((ulong)did.Numbers);
            for (int i = 0; i < 4 * did.Rows; i++) Add(names[i]);
            for (int i = 0; i < did.Numbers; i++) Add((uint)values[i]);
        }
        return at;
    }

    static void WrittenByRuns(Shape shape, ushort[] heights)
    {
        Writer writer = new Writer(shape);
        int at = RunOn(writer, heights, 0);
        writer.Finish();
        RunOn(writer, heights, at);
    }

    static void ReadByRuns(Shape shape, int[] values)
    {
        Reader reader = new Reader(shape);
        for (int at = 0, drawn = 0; drawn < shape.Height;)
        {
            ushort[] heights = new ushort[(1 + Below(3)) * shape.Width];
            Reader.Did did;
            reader.Run(new ArraySegment<int>(values, at, values.Length - at), heights, out did);
            at += did.Used; drawn += did.Rows;
            Add((ulong)did.Used); Add((ulong)did.Rows);
            for (int i = 0; i < did.Rows * shape.Width; i++) Add(heights[i]);
        }
    }

    static byte[] Saved(Shape shape, int[] plane, long step)
    {
        Saver saver = new Saver(shape, step);
        List<byte> file = new List<byte>();
        for (int written = 1; written > 0;)
        {
            byte[] part = new byte[1 + Below(40)];
            written = saver.Save(plane, part);
            for (int i = 0; i < written; i++) Add(part[i]);
            file.AddRange(part.Take(written));
        }
        return file.ToArray();
    }

    static void LoadOn(byte[] file)
    {
        long step;
        Shape shape = GroundFile.Header(file, out step);
        foreach (long number in new[] { shape.Width, shape.Height, shape.Levels, shape.X, shape.Y, shape.Filter, step }) Add((ulong)number);
        Loader loader = new Loader(shape, step);
        ushort[] heights = new ushort[64];
        for (int at = 0;;)
        {
            LoaderWant want = loader.Want();
            Add((ulong)want);
            if (want == LoaderWant.Draw) { int n = loader.Draw(heights); for (int i = 0; i < n; i++) Add(heights[i]); }
            else if (want == LoaderWant.Bytes && at < file.Length)
            {
                int taken = loader.Take(new ArraySegment<byte>(file, at, 1 + (int)Below((uint)(file.Length - at))));
                at += taken;
                Add((ulong)taken);
            }
            else return;
        }
    }

    static uint Loaded(byte[] file)
    {
        try { LoadOn(file); } catch (Refused refused) { return refused.Question; }
        return 0;
    }

    // Pack and Unpack say what the calls below them do.
    static void Packed(Shape shape, ushort[] heights, long step, byte[] file, bool loads)
    {
        Shape said;
        if (!GroundFile.Pack(heights, shape, step).SequenceEqual(file)) throw new Exception("Pack");
        if (loads && step == 1 && !GroundFile.Unpack(file, out said).SequenceEqual(heights)) throw new Exception("Unpack");
        foreach (int length in new[] { file.Length - 1, file.Length + 1 })
        {
            byte[] other = new byte[length];
            Array.Copy(file, other, Math.Min(length, file.Length));
            uint question = 0;
            try { GroundFile.Unpack(other, out said); } catch (Refused refused) { question = refused.Question; }
            if (question != 22) throw new Exception("Unpack, of another length");
        }
    }

    static byte[] GroundFiles(Shape shape, ushort[] heights, int[] plane, long step)
    {
        byte[] file = Saved(shape, plane, step);
        uint answer = Loaded(file);
        Add(answer);
        Packed(shape, heights, step, file, answer == 0);
        int place = 24 + (int)Below((uint)(file.Length - 24));
        file[place] ^= (byte)(1 + Below(255));
        Add(Loaded(file));
        return file;
    }

    static byte[] ReadRounded(ushort[] heights, long width, long height, long step)
    {
        Shape shape = new Shape(width, height, levels);
        int[] plane = Map.Forward(heights, shape);
        Map.Round(plane, width, height, levels, step);
        foreach (int value in plane) Add((uint)value);
        Add((ulong)Map.ErrorBound(levels, step));
        ReadBack(Reader.Tolerant(width, height, levels), shape, plane);
        return GroundFiles(shape, heights, plane, step);
    }

    static void Main()
    {
        ushort[] heights = null;
        byte[] file = null;
        for (int i = 0; i < 60; i++)
        {
            Shape shape = SomeShape();
            heights = new ushort[shape.Width * shape.Height];
            int[] plane = WholeMap(shape, heights);
            Written(shape, heights);
            int[] fed = ReadBack(new Reader(shape), shape, plane);
            WrittenByRuns(shape, heights);
            ReadByRuns(shape, fed);
            GroundFiles(shape, heights, plane, 1);
            long stop = 1 + Below(levels), columns, rows;
            Map.LevelSize(shape, stop, out columns, out rows);
            Add((ulong)columns); Add((ulong)rows);
            ReadBack(new Reader(shape, stop), shape, plane);
            file = ReadRounded(heights, shape.Width, shape.Height, 1 + Below(64));
        }
        file[0]++;
        Add(Loaded(file));
        try { Map.Forward(heights, new Shape(2050, 1, 1)); } catch (Refused refused) { Add(refused.Question); }
        Console.WriteLine("{0:x16}", hash);
    }
}
