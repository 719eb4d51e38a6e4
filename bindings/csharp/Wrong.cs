// What isn't allowed throws, and nothing is drawn. With one of the words below defined it must not compile.
using System;
using System.Linq;
using System.Threading;

static class Wrong
{
    static readonly float[] clip = {1, 0, 0, 0, 0, 1, 0, 0, 0, 0, -1, -1, 0, 0, -0.25f, 0};
    static readonly float[] wall = {-9, 9, -4, 9, 9, -4, 9, -9, -4, -9, -9, -4}, box = {-1, -1, -9, 1, 1, -8};
    static readonly ushort[] quad = {0, 1, 2, 0, 2, 3};
    static int tried, faults;

    static void Throws<Wanted>(string what, Action call) where Wanted : Exception
    {
        tried++;
        try { call(); }
        catch (Wanted) { return; }
        catch (Exception other) { Console.WriteLine("{0}: {1}", what, other); }
        Console.WriteLine("{0}: no {1}", what, typeof(Wanted).Name);
        faults++;
    }

    static void Is(string what, bool holds)
    {
        tried++;
        if (holds) return;
        Console.WriteLine("not so: {0}", what);
        faults++;
    }

    static void Frames()
    {
        var usual = new MaskcullFrame.Options();
        Throws<ArgumentException>("no width", () => new MaskcullFrame(0, 32, 0.1f));
        Throws<ArgumentException>("width below 0", () => new MaskcullFrame(-64, 32, 0.1f));
        Throws<ArgumentException>("height 2049", () => new MaskcullFrame(64, 2049, 0.1f, usual));
        Throws<ArgumentException>("near NaN", () => new MaskcullFrame(64, 32, float.NaN));
        Throws<ArgumentException>("exact", () => new MaskcullFrame(64, 32, 1,
            new MaskcullFrame.Options {Exact = true}));
        Throws<ArgumentException>("reach", () => new MaskcullFrame(64, 32, 1, new MaskcullFrame.Options {Reach = 8}));
        Throws<ArgumentException>("winding", () => new MaskcullFrame(64, 32, 1,
            new MaskcullFrame.Options {Winding = (MaskcullFrame.Winding)3}));
        Throws<ArgumentException>("depths", () => new MaskcullFrame(64, 32, 1,
            new MaskcullFrame.Options {Orthographic = true, AtNear = 1, AtFar = 1}));
    }

    static void Arguments(MaskcullFrame frame)
    {
        float[] none = null, shorter = clip.Skip(1).ToArray();
        Throws<ArgumentException>("no matrix", () => frame.Draw(none, wall, quad));
        Throws<ArgumentException>("15 numbers", () => frame.Draw(shorter, wall, quad));
        Throws<ArgumentException>("no positions", () => frame.Draw(clip, none, quad));
        Throws<ArgumentException>("11 positions", () => frame.Draw(clip, wall.Skip(1).ToArray(), quad));
        Throws<ArgumentException>("no indices", () => frame.Draw(clip, wall, (uint[])null));
        Throws<ArgumentException>("5 indices", () => frame.Draw(clip, wall, quad.Skip(1).ToArray()));
        Throws<ArgumentException>("a winding", () => frame.Draw(clip, wall, quad, (MaskcullFrame.Winding)3));
        Throws<ArgumentException>("5 numbers of a box", () => frame.TestBoxes(clip, box.Skip(1).ToArray()));
        Throws<ArgumentException>("no boxes", () => frame.TestBoxes(clip, none));
        Throws<ArgumentException>("no matrix to test by", () => frame.TestBoxes(none, box));
        Throws<ArgumentException>("11 positions to test", () => frame.TestMesh(clip, wall.Skip(1).ToArray(), quad));
        Throws<IndexOutOfRangeException>("an index", () => frame.Draw(clip, wall, new ushort[] {0, 1, 4}));
        Throws<IndexOutOfRangeException>("a long index",
            () => frame.Draw(clip, wall, new uint[] {0, 1, uint.MaxValue}));
        Throws<IndexOutOfRangeException>("no vertex", () => frame.Draw(clip, new float[0], quad));
        Is("a mesh past the end is visible", frame.TestMesh(clip, wall, new uint[] {0, 1, 4}) == MaskcullFrame.Visible);
        Is("nothing is drawn", frame.Picture().All(near => near == 0) && frame.Picture().Length == 61 * 31);
        Is("no box, no verdict", frame.TestBoxes(clip, new float[0]).Length == 0);
        frame.Draw(clip, new float[0], new uint[0]);
    }

    static void Verdicts(MaskcullFrame frame)
    {
        frame.Draw(clip, wall, quad, MaskcullFrame.Winding.DropsClockwise);
        Is("a dropped winding", frame.TestBoxes(clip, box)[0] == MaskcullFrame.Visible);
        frame.Draw(clip, wall, quad.Select(number => (uint)number).ToArray());
        Is("a box behind", frame.TestBoxes(clip, box)[0] == MaskcullFrame.Occluded);
        var threads = Enumerable.Range(0, 4).Select(k => new Thread(() => {
            frame.Draw(clip, wall, quad);
            frame.TestBoxes(clip, box);
        })).ToArray();
        foreach (Thread thread in threads) thread.Start();
        foreach (Thread thread in threads) thread.Join();
        frame.Clear();
        Is("cleared", frame.TestBoxes(clip, box)[0] == MaskcullFrame.Visible);
    }

    static int Main()
    {
        Frames();
        var frame = new MaskcullFrame(61, 31, 0.1f);
        Arguments(frame);
        Verdicts(frame);
        frame.Dispose();
        frame.Dispose();
        Throws<ObjectDisposedException>("disposed, drawn", () => frame.Draw(clip, wall, quad));
        Throws<ObjectDisposedException>("disposed, tested", () => frame.TestBoxes(clip, box));
#if WRONG_DOUBLES
        frame.TestBoxes(clip.Select(number => (double)number).ToArray(), box);
#elif WRONG_INDICES
        frame.Draw(clip, wall, new int[] {0, 1, 2});
#elif WRONG_POSITIONS
        frame.Draw(clip, new float[4, 3], quad);
#endif
        Console.WriteLine("{0} tried, {1} faults", tried, faults);
        return faults == 0 ? 0 : 1;
    }
}
