// The program of bindings/c/yard.c.
using System;
using System.Linq;

static class Yard
{
    static readonly float[] toClip = {1, 0, 0, 0, 0, 1.75f, 0, 0, 0, 0, -1, -1, 0, 0, -0.25f, 0};
    static uint state = 1;

    static float Next(uint below)
    {
        state = unchecked(state * 1103515245u + 12345u) & 0x7fffffff;
        return (state >> 16) % below;
    }

    static void Main()
    {
        using (var frame = new MaskcullFrame(1280, 720, 0.125f))
        {
            frame.Clear();
            for (int k = 0; k < 40; k++)
            {
                float x = Next(64) - 32, z = -4 - Next(60), half = 1 + Next(4), top = Next(8);
                float[] wall = {x - half, top, z, x + half, top, z, x + half, -4, z, x - half, -4, z};
                frame.Draw(toClip, wall, new ushort[] {0, 1, 2, 0, 2, 3});
            }
            var boxes = new float[6 * 1000];
            for (int k = 0; k < 1000; k++)
            {
                float x = Next(128) - 64, y = Next(8) - 4, z = 2 - Next(128);
                new[] {x, y, z - 1, x + 1, y + 1, z}.CopyTo(boxes, 6 * k);
            }
            byte[] verdicts = frame.TestBoxes(toClip, boxes);
            Func<byte, int> count = wanted => verdicts.Count(verdict => verdict == wanted);
            Console.WriteLine("visible {0} occluded {1} outside {2}", count(MaskcullFrame.Visible),
                count(MaskcullFrame.Occluded), count(MaskcullFrame.Outside));
            ulong sum = 0, place = 0;
            foreach (ushort near in frame.Picture()) sum += ++place * near;
            Console.WriteLine("picture {0}", sum);
        }
    }
}
