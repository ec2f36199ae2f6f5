// Height maps to wavelet coefficients and back, exactly: C# over the proved library (include/terrain.h), by P/Invoke, as Unity loads a native plug-in.
// Writer, Reader and Loader own their state and their line store. A call that is turned away throws Refused, which has the question's number; it has changed
// nothing that was lent to it, but for 14, which ends a reader or a loader.
using System;
using System.Collections.Generic;
using System.Runtime.InteropServices;

namespace Terrain
{
    public sealed class Refused : Exception
    {
        public readonly uint Question;
        public Refused(uint question) : this(question, question < Sentences.Length ? Sentences[question] : "no question has this number") { }
        public Refused(uint question, string sentence) : base(sentence + " (" + question + ")") { Question = question; }

        // terrain_sentence of include/terrain.h
        static readonly string[] Sentences =
        {
            "nothing is wrong",
            "the state is none that its calls made: a count is outside its range",
            "the width is not 1 to 2,049",
            "the height is not 1 to 4,294,967,295",
            "the number of levels is not 1 to 5, by the 9/7 1 to 4",
            "an area that was lent is too short",
            "there is no such band row, or no such cell",
            "a coefficient is outside its level's range",
            "it is not this call's turn: draw the rows that wait first, or none is wanted",
            "it is over: the writer is finished, or the reader ended after 14",
            "the map already has 4,294,967,295 rows",
            "the map has no row yet, or its last row is not complete",
            "the output area is too short for the row",
            "the run has not the length of the band row that is wanted",
            "no map has these coefficients",
            "the input is not in the form that the listing reads",
            "a sample exceeds the largest value that the picture's header names",
            "the level or the stop is not one of the map's levels",
            "there is no such filter",
            "the rectangle is empty or leaves the map",
            "the step is not 1 to 64",
            "the reader's number is not 0 to 15",
            "no file has this here",
        };
        internal static void IfNot(uint answer) { if (answer != 0) throw new Refused(answer); }
    }

    // Width, height and levels of a map, the coordinates of its first column and row, its filter.
    [StructLayout(LayoutKind.Sequential)]
    public struct Shape
    {
        UIntPtr width, height, levels;
        public ushort X, Y;
        public uint Filter;
        public Shape(long width, long height, long levels)
        {
            this.width = (UIntPtr)(ulong)width; this.height = (UIntPtr)(ulong)height; this.levels = (UIntPtr)(ulong)levels;
            X = 0; Y = 0; Filter = 0;
        }
        public long Width { get { return (long)(ulong)width; } }
        public long Height { get { return (long)(ulong)height; } }
        public long Levels { get { return (long)(ulong)levels; } }
        public long StoreLength { get { return (long)(ulong)Native.terrain_store_length(this); } }
    }

    // A band row: its level (1 the finest), band (0 LL, 1 HL, 2 LH, 3 HH), number and length. Level 0: there is none.
    public struct BandRow
    {
        public readonly int Level, Band, Length;
        public readonly long Row;
        // From the four numbers of a name (Writer.Run).
        public BandRow(ulong[] named, int first)
        {
            Level = (int)named[first]; Band = (int)named[first + 1]; Row = (long)named[first + 2]; Length = (int)named[first + 3];
        }
    }

    public enum Want { Row, Draw, Done, Ended }

    public static class Map
    {
        public static int[] Forward(ushort[] heights, Shape shape)
        {
            int[] plane = new int[shape.Width * shape.Height], work = new int[plane.Length];
            Refused.IfNot(Native.terrain_map_forward(heights, Size(heights), shape, plane, Size(plane), work, Size(work)));
            return plane;
        }

        public static ushort[] Backward(int[] plane, Shape shape)
        {
            ushort[] heights = new ushort[shape.Width * shape.Height];
            int[] work = new int[heights.Length];
            Refused.IfNot(Native.terrain_map_backward(plane, Size(plane), shape, heights, Size(heights), work, Size(work)));
            return heights;
        }

        // Where a band row stands in a plane.
        public static ArraySegment<int> Row(int[] plane, Shape shape, BandRow row)
        {
            UIntPtr start = UIntPtr.Zero, length = UIntPtr.Zero;
            UIntPtr level = (UIntPtr)(uint)row.Level, band = (UIntPtr)(uint)row.Band, number = (UIntPtr)(ulong)row.Row;
            Refused.IfNot(Native.terrain_band_row(Size(plane), shape, level, band, number, ref start, ref length));
            return new ArraySegment<int>(plane, (int)start, (int)length);
        }

        // The columns and rows of a level's LL.
        public static void LevelSize(Shape shape, long level, out long columns, out long rows)
        {
            UIntPtr across = UIntPtr.Zero, down = UIntPtr.Zero;
            Refused.IfNot(Native.terrain_level_size(shape, (UIntPtr)(ulong)level, ref across, ref down));
            columns = (long)(ulong)across; rows = (long)(ulong)down;
        }

        // A plane of the 5/3, from the origin, rounded by a step for a smaller download.
        public static void Round(int[] plane, long width, long height, long levels, long step)
        {
            UIntPtr columns = (UIntPtr)(ulong)width, rows = (UIntPtr)(ulong)height;
            Refused.IfNot(Native.terrain_round(plane, Size(plane), columns, rows, (UIntPtr)(ulong)levels, (UIntPtr)(ulong)step));
        }

        // By how much a height can be off that Reader.Tolerant rebuilds from a plane rounded so.
        public static long ErrorBound(long levels, long step)
        {
            UIntPtr bound = UIntPtr.Zero;
            Refused.IfNot(Native.terrain_error_bound((UIntPtr)(ulong)levels, (UIntPtr)(ulong)step, ref bound));
            return (long)(ulong)bound;
        }

        public static float[] Profile(ushort[] row, int count)
        {
            float[] profile = new float[count];
            Refused.IfNot(Native.terrain_profile(row, (UIntPtr)(uint)count, profile, Size(profile)));
            return profile;
        }

        internal static UIntPtr Size(Array area) { return (UIntPtr)(ulong)area.LongLength; }
    }

    // Heights in, in runs cut anywhere; band rows out as soon as they are due.
    public sealed unsafe class Writer
    {
        readonly ulong[] state = new ulong[16], named = new ulong[4];
        readonly int[] store;

        public Writer(Shape shape)
        {
            store = new int[shape.StoreLength + 1];
            Refused.IfNot(Native.terrain_writer_set_up(state, shape, store, Map.Size(store)));
        }

        // How many heights were taken: draw what waits and offer the others again.
        public int Offer(ArraySegment<ushort> run)
        {
            UIntPtr taken = UIntPtr.Zero;
            ushort none = 0;
            fixed (ushort* first = run.Array)
            {
                ushort* from = run.Count == 0 ? &none : first + run.Offset;
                Refused.IfNot(Native.terrain_writer_offer(state, store, Map.Size(store), from, (UIntPtr)(uint)run.Count, ref taken));
            }
            return (int)taken;
        }

        // The band row that waits, its values at the front of `values`; level 0 where none does.
        public BandRow Draw(int[] values)
        {
            Refused.IfNot(Native.terrain_writer_draw(state, store, Map.Size(store), values, Map.Size(values), named));
            return new BandRow(named, 0);
        }

        // Many rows at once: how many heights were taken, how many rows were put and how many numbers these have. Their values stand in `values` one after the
        // other, and four numbers each in `names` (new BandRow(names, 4 * i) reads them).
        public struct Did { public int Taken, Rows, Numbers; }

        public Did Run(ArraySegment<ushort> heights, int[] values, ulong[] names)
        {
            ulong[] counts = new ulong[3];
            ushort none = 0;
            fixed (ushort* first = heights.Array)
            {
                ushort* from = heights.Count == 0 ? &none : first + heights.Offset;
                UIntPtr count = (UIntPtr)(uint)heights.Count;
                Refused.IfNot(Native.terrain_writer_run(state, store, Map.Size(store), from, count, values, Map.Size(values), names, Map.Size(names), counts));
            }
            return new Did { Taken = (int)counts[0], Rows = (int)counts[1], Numbers = (int)counts[2] };
        }

        public void Finish() { Refused.IfNot(Native.terrain_writer_finish(state, store, Map.Size(store))); }
    }

    // Band rows in, in the order that it wants them; height rows out.
    public sealed unsafe class Reader
    {
        readonly ulong[] state = new ulong[16], wanted = new ulong[5];
        readonly int[] store;

        public Reader(Shape shape)
        {
            store = new int[shape.StoreLength + 1];
            Refused.IfNot(Native.terrain_reader_set_up(state, shape, store, Map.Size(store)));
        }

        // One that stops at a level and hands out its LL as heights, without the finer rows.
        public Reader(Shape shape, long stop)
        {
            store = new int[shape.StoreLength + 1];
            Refused.IfNot(Native.terrain_reader_set_up_at(state, shape, (UIntPtr)(ulong)stop, store, Map.Size(store)));
        }

        // One for a rounded plane, of the 5/3, from the origin: each value that it rebuilds is limited to its level's range, and nothing is refused by 14.
        public static Reader Tolerant(long width, long height, long levels) { return new Reader(width, height, levels); }

        Reader(long width, long height, long levels)
        {
            store = new int[new Shape(width, height, levels).StoreLength + 1];
            UIntPtr columns = (UIntPtr)(ulong)width, rows = (UIntPtr)(ulong)height;
            Refused.IfNot(Native.terrain_tolerant_set_up(state, columns, rows, (UIntPtr)(ulong)levels, store, Map.Size(store)));
        }

        public Want Want(out BandRow row)
        {
            Refused.IfNot(Native.terrain_reader_want(state, wanted));
            row = new BandRow(wanted, 1);
            return (Want)wanted[0];
        }

        public void Feed(ArraySegment<int> values)
        {
            int none = 0;
            fixed (int* first = values.Array)
            {
                int* from = values.Count == 0 ? &none : first + values.Offset;
                Refused.IfNot(Native.terrain_reader_feed(state, store, Map.Size(store), from, (UIntPtr)(uint)values.Count));
            }
        }

        // How many heights of the next row stand at the front of `heights`; 0 where none can be drawn.
        public int Draw(ushort[] heights)
        {
            UIntPtr drawn = UIntPtr.Zero;
            Refused.IfNot(Native.terrain_reader_draw(state, store, Map.Size(store), heights, Map.Size(heights), ref drawn));
            return (int)drawn;
        }

        // Many rows at once, of band rows in the order that it wants them: how many numbers were used, and how many height rows stand in `heights`. They are
        // set too where 14 is thrown.
        public struct Did { public int Used, Rows; }

        public void Run(ArraySegment<int> values, ushort[] heights, out Did did)
        {
            ulong[] counts = new ulong[2];
            int none = 0;
            uint answer;
            fixed (int* first = values.Array)
            {
                int* from = values.Count == 0 ? &none : first + values.Offset;
                answer = Native.terrain_reader_run(state, store, Map.Size(store), from, (UIntPtr)(uint)values.Count, heights, Map.Size(heights), counts);
            }
            did = new Did { Used = (int)counts[0], Rows = (int)counts[1] };
            Refused.IfNot(answer);
        }
    }

    // ---- The ground file (docs/FORMAT.md): a map as the bytes of one file, with its shape and a checksum in it.

    // The bytes of a plane's file, one area after the other; the same plane is lent to each call. The step is 1, or that of Map.Round.
    public sealed class Saver
    {
        readonly ulong[] state = new ulong[32];

        public Saver(Shape shape, long step) { Refused.IfNot(Native.terrain_save_set_up(state, shape, (UIntPtr)(ulong)step)); }

        // How many bytes stand at the front of `bytes`; 0 of an area with room: the file is complete.
        public int Save(int[] plane, byte[] bytes)
        {
            UIntPtr written = UIntPtr.Zero;
            Refused.IfNot(Native.terrain_save(state, plane, Map.Size(plane), bytes, Map.Size(bytes), ref written));
            return (int)written;
        }
    }

    public enum LoaderWant { Bytes, Draw, Done, Ended }

    // A file's bytes in, from its first on, in runs cut anywhere; height rows out. Those drawn before Done come from a file whose checksum is still to be read.
    public sealed unsafe class Loader
    {
        readonly ulong[] state = new ulong[32];
        readonly int[] store, row;

        public Loader(Shape shape, long step)
        {
            store = new int[shape.StoreLength + 1];
            row = new int[store.Length > 1 ? shape.Width / 2 + 1 : 1];
            Refused.IfNot(Native.terrain_load_set_up(state, shape, (UIntPtr)(ulong)step, store, Map.Size(store)));
        }

        public LoaderWant Want()
        {
            uint want = 0;
            Refused.IfNot(Native.terrain_load_want(state, ref want));
            return (LoaderWant)want;
        }

        // How many bytes of the run were taken: draw, where a row can be drawn, and offer the others again.
        public int Take(ArraySegment<byte> run)
        {
            UIntPtr taken = UIntPtr.Zero;
            byte none = 0;
            fixed (byte* first = run.Array)
            {
                byte* from = run.Count == 0 ? &none : first + run.Offset;
                Refused.IfNot(Native.terrain_load_take(state, store, Map.Size(store), row, Map.Size(row), from, (UIntPtr)(uint)run.Count, ref taken));
            }
            return (int)taken;
        }

        // How many heights of the next row stand at the front of `heights`; 0 where none can be drawn.
        public int Draw(ushort[] heights)
        {
            UIntPtr drawn = UIntPtr.Zero;
            Refused.IfNot(Native.terrain_load_draw(state, store, Map.Size(store), heights, Map.Size(heights), ref drawn));
            return (int)drawn;
        }
    }

    public static class GroundFile
    {
        const uint NoFile = 22;

        // The shape and the step that the first 24 bytes of a file say; those after them are not read.
        public static Shape Header(byte[] bytes, out long step)
        {
            ulong[] said = new ulong[7];
            Refused.IfNot(Native.terrain_file_header(bytes, Map.Size(bytes), said));
            Shape shape = new Shape((long)said[0], (long)said[1], (long)said[2]);
            shape.X = (ushort)said[3]; shape.Y = (ushort)said[4]; shape.Filter = (uint)said[5];
            step = (long)said[6];
            return shape;
        }

        // A map as a ground file; with a step above 1 (the 5/3, from the origin) a smaller one, rounded.
        public static byte[] Pack(ushort[] heights, Shape shape, long step)
        {
            Saver saver = new Saver(shape, step);
            int[] plane = Map.Forward(heights, shape);
            if (step > 1) Map.Round(plane, shape.Width, shape.Height, shape.Levels, step);
            List<byte> file = new List<byte>();
            byte[] part = new byte[65536];
            for (int written = saver.Save(plane, part); written > 0; written = saver.Save(plane, part))
                file.AddRange(new ArraySegment<byte>(part, 0, written));
            return file.ToArray();
        }

        // The map of a whole ground file. 22: it is none, or damaged, or cut short, or something follows it.
        public static ushort[] Unpack(byte[] file, out Shape shape)
        {
            long step;
            shape = Header(file, out step);
            Loader loader = new Loader(shape, step);
            List<ushort> heights = new List<ushort>();
            ushort[] row = new ushort[shape.Width];
            int at = 0;
            for (LoaderWant want = loader.Want(); want != LoaderWant.Done; want = loader.Want())
            {
                if (want == LoaderWant.Draw) { loader.Draw(row); heights.AddRange(row); }
                else if (at == file.Length) throw new Refused(NoFile, "the file ends early");
                else at += loader.Take(new ArraySegment<byte>(file, at, file.Length - at));
            }
            if (at < file.Length) throw new Refused(NoFile, "there are bytes after the file's end");
            return heights.ToArray();
        }
    }

    static unsafe class Native
    {
        const string Library = "terrain";
        [DllImport(Library)]
        internal static extern UIntPtr terrain_store_length(Shape shape);
        [DllImport(Library)]
        internal static extern uint terrain_map_forward(ushort[] heights, UIntPtr n, Shape shape, int[] plane, UIntPtr m, int[] work, UIntPtr w);
        [DllImport(Library)]
        internal static extern uint terrain_map_backward(int[] plane, UIntPtr n, Shape shape, ushort[] heights, UIntPtr m, int[] work, UIntPtr w);
        [DllImport(Library)]
        internal static extern uint terrain_band_row(UIntPtr plane, Shape shape, UIntPtr level, UIntPtr band, UIntPtr row, ref UIntPtr start, ref UIntPtr length);
        [DllImport(Library)]
        internal static extern uint terrain_round(int[] plane, UIntPtr n, UIntPtr width, UIntPtr height, UIntPtr levels, UIntPtr step);
        [DllImport(Library)]
        internal static extern uint terrain_error_bound(UIntPtr levels, UIntPtr step, ref UIntPtr bound);
        [DllImport(Library)]
        internal static extern uint terrain_profile(ushort[] row, UIntPtr n, float[] profile, UIntPtr m);
        [DllImport(Library)]
        internal static extern uint terrain_level_size(Shape shape, UIntPtr level, ref UIntPtr columns, ref UIntPtr rows);
        [DllImport(Library)]
        internal static extern uint terrain_writer_set_up(ulong[] state, Shape shape, int[] store, UIntPtr n);
        [DllImport(Library)]
        internal static extern uint terrain_writer_offer(ulong[] state, int[] store, UIntPtr n, ushort* run, UIntPtr m, ref UIntPtr taken);
        [DllImport(Library)]
        internal static extern uint terrain_writer_draw(ulong[] state, int[] store, UIntPtr n, int[] values, UIntPtr m, ulong[] row);
        [DllImport(Library)]
        internal static extern uint terrain_writer_finish(ulong[] state, int[] store, UIntPtr n);
        [DllImport(Library)]
        internal static extern uint terrain_reader_set_up(ulong[] state, Shape shape, int[] store, UIntPtr n);
        [DllImport(Library)]
        internal static extern uint terrain_reader_set_up_at(ulong[] state, Shape shape, UIntPtr stop, int[] store, UIntPtr n);
        [DllImport(Library)]
        internal static extern uint terrain_tolerant_set_up(ulong[] state, UIntPtr width, UIntPtr height, UIntPtr levels, int[] store, UIntPtr n);
        [DllImport(Library)]
        internal static extern uint terrain_reader_want(ulong[] state, ulong[] want);
        [DllImport(Library)]
        internal static extern uint terrain_reader_feed(ulong[] state, int[] store, UIntPtr n, int* values, UIntPtr m);
        [DllImport(Library)]
        internal static extern uint terrain_reader_draw(ulong[] state, int[] store, UIntPtr n, ushort[] heights, UIntPtr m, ref UIntPtr drawn);
        [DllImport(Library)]
        internal static extern uint terrain_writer_run(ulong[] state, int[] store, UIntPtr n, ushort* heights, UIntPtr m, int[] values, UIntPtr v,
                                                       ulong[] names, UIntPtr k, ulong[] counts);
        [DllImport(Library)]
        internal static extern uint terrain_reader_run(ulong[] state, int[] store, UIntPtr n, int* values, UIntPtr m, ushort[] heights, UIntPtr h,
                                                       ulong[] counts);
        [DllImport(Library)]
        internal static extern uint terrain_save_set_up(ulong[] state, Shape shape, UIntPtr step);
        [DllImport(Library)]
        internal static extern uint terrain_save(ulong[] state, int[] plane, UIntPtr n, byte[] bytes, UIntPtr m, ref UIntPtr written);
        [DllImport(Library)]
        internal static extern uint terrain_file_header(byte[] bytes, UIntPtr n, ulong[] header);
        [DllImport(Library)]
        internal static extern uint terrain_load_set_up(ulong[] state, Shape shape, UIntPtr step, int[] store, UIntPtr n);
        [DllImport(Library)]
        internal static extern uint terrain_load_want(ulong[] state, ref uint want);
        [DllImport(Library)]
        internal static extern uint terrain_load_take(ulong[] state, int[] store, UIntPtr n, int[] row, UIntPtr m, byte* run, UIntPtr k, ref UIntPtr taken);
        [DllImport(Library)]
        internal static extern uint terrain_load_draw(ulong[] state, int[] store, UIntPtr n, ushort[] heights, UIntPtr m, ref UIntPtr drawn);
    }
}
