// SPDX-License-Identifier: MIT OR Apache-2.0
using System;
using System.Runtime.InteropServices;
using System.Threading;

/// <summary>maskcull for C#: tells, before a picture is drawn, what is hidden in it. It has the calls of
/// maskcull_frame.h in libmaskcull.so or maskcull.dll. Any threads may use one frame: tests run side by side, and what
/// draws or clears waits for them. Arrays aren't copied.</summary>
public sealed class MaskcullFrame : IDisposable
{
    public const byte Visible = 16, Occluded = 17, Outside = 18;
    const string Library = "maskcull";
    const uint OwnWinding = 3, BadIndex = 3, NoMemory = 6, ReasonNoMemory = 10;

    /// <summary>Which occluder triangles aren't drawn, by how they run on the screen.</summary>
    public enum Winding : uint { KeepsBoth = 0, DropsClockwise = 1, DropsCounterclockwise = 2 }

    /// <summary>How a frame is to be. Without any, both windings are drawn, in the wide grade and a view in
    /// perspective; matrices lie column by column, and y / w is 1 at the upper edge.</summary>
    public sealed class Options
    {
        public Winding Winding;
        public bool ByRows, YIsDown, Narrow;
        /// <summary>Then the near distance isn't read, but z / w at the near plane and at the far one.</summary>
        public bool Orthographic;
        public float AtNear, AtFar;
        /// <summary>Refused in this version, as the two behind it.</summary>
        public bool Exact;
        public uint Reach, Share;
    }

    [StructLayout(LayoutKind.Sequential)]
    struct NativeOptions
    {
        public uint Size, Exact, Reach, Share, Winding, ByRows, YIsDown, Narrow, Orthographic;
        public float AtNear, AtFar;
    }

    // The runtime keeps a frame from being freed while a call has it.
    sealed class Handle : SafeHandle
    {
        public Handle() : base(IntPtr.Zero, true) { }
        public override bool IsInvalid { get { return handle == IntPtr.Zero; } }
        protected override bool ReleaseHandle() { maskcull_frame_free(handle); return true; }
    }

    [DllImport(Library)] static extern uint maskcull_frame_version();
    [DllImport(Library)]
    static extern Handle maskcull_frame_make(uint width, uint height, float nearDistance, ref NativeOptions options,
        out uint reason);
    [DllImport(Library)] static extern IntPtr maskcull_frame_text(uint reason);
    [DllImport(Library)] static extern void maskcull_frame_free(IntPtr frame);
    [DllImport(Library)] static extern void maskcull_frame_clear(Handle frame);
    [DllImport(Library)]
    static extern uint maskcull_frame_draw(Handle frame, float[] toClip, float[] positions, UIntPtr stride,
        UIntPtr vertexCount, ushort[] indices, UIntPtr indexBytes, UIntPtr indexCount, uint winding);
    [DllImport(Library)]
    static extern uint maskcull_frame_draw(Handle frame, float[] toClip, float[] positions, UIntPtr stride,
        UIntPtr vertexCount, uint[] indices, UIntPtr indexBytes, UIntPtr indexCount, uint winding);
    [DllImport(Library)]
    static extern UIntPtr maskcull_frame_test_boxes(Handle frame, float[] toClip, float[] boxes, UIntPtr count,
        [Out] byte[] verdicts);
    [DllImport(Library)]
    static extern uint maskcull_frame_test_mesh(Handle frame, float[] toClip, float[] positions, UIntPtr stride,
        UIntPtr vertexCount, ushort[] indices, UIntPtr indexBytes, UIntPtr indexCount);
    [DllImport(Library)]
    static extern uint maskcull_frame_test_mesh(Handle frame, float[] toClip, float[] positions, UIntPtr stride,
        UIntPtr vertexCount, uint[] indices, UIntPtr indexBytes, UIntPtr indexCount);
    [DllImport(Library)]
    static extern uint maskcull_frame_nearness(Handle frame, [Out] ushort[] picture, UIntPtr count, UIntPtr stride);

    static readonly UIntPtr Stride = (UIntPtr)(3 * sizeof(float));
    readonly ReaderWriterLockSlim gate = new ReaderWriterLockSlim(LockRecursionPolicy.NoRecursion);
    readonly Handle frame;
    readonly int width, height;

    /// <summary>An empty frame for a window of any width and height from 1 to 2048.</summary>
    public MaskcullFrame(int width, int height, float nearDistance, Options options = null)
    {
        if (width < 0 || height < 0) throw new ArgumentException("a width or a height is below 0");
        if (maskcull_frame_version() / 100 != 1) throw new DllNotFoundException("maskcull isn't of version 0.1");
        options = options ?? new Options();
        var chosen = new NativeOptions
        {
            Size = (uint)Marshal.SizeOf(typeof(NativeOptions)), Exact = options.Exact ? 1u : 0, Reach = options.Reach,
            Share = options.Share, Winding = (uint)options.Winding, ByRows = options.ByRows ? 1u : 0,
            YIsDown = options.YIsDown ? 1u : 0, Narrow = options.Narrow ? 1u : 0,
            Orthographic = options.Orthographic ? 1u : 0, AtNear = options.AtNear, AtFar = options.AtFar
        };
        uint reason;
        frame = maskcull_frame_make((uint)width, (uint)height, nearDistance, ref chosen, out reason);
        if (reason == ReasonNoMemory) throw new OutOfMemoryException();
        if (frame.IsInvalid) throw new ArgumentException(Marshal.PtrToStringAnsi(maskcull_frame_text(reason)));
        this.width = width;
        this.height = height;
    }

    public int Width { get { return width; } }
    public int Height { get { return height; } }

    public void Dispose() { frame.Dispose(); }

    public void Clear() { Alone(() => { maskcull_frame_clear(frame); return 0u; }); }

    /// <summary>Draws a mesh: x, y, z of each vertex and three numbers of vertices for each triangle, through a matrix
    /// of 16 numbers; with a winding for it alone where one is given. If it throws, nothing was drawn.</summary>
    public void Draw(float[] toClip, float[] positions, ushort[] indices, Winding? winding = null)
    {
        Check(toClip, positions, indices);
        uint status = Alone(() => maskcull_frame_draw(frame, toClip, positions, Stride, Count(positions, 3), indices,
            (UIntPtr)2, Count(indices, 1), Number(winding)));
        Throw(status);
    }

    public void Draw(float[] toClip, float[] positions, uint[] indices, Winding? winding = null)
    {
        Check(toClip, positions, indices);
        uint status = Alone(() => maskcull_frame_draw(frame, toClip, positions, Stride, Count(positions, 3), indices,
            (UIntPtr)4, Count(indices, 1), Number(winding)));
        Throw(status);
    }

    /// <summary>Six numbers for each box, its low corner and its high one; a byte for each.</summary>
    public byte[] TestBoxes(float[] toClip, float[] boxes)
    {
        Demand(toClip, 16, true, "a matrix");
        Demand(boxes, 6, false, "boxes");
        var verdicts = new byte[boxes.Length / 6];
        if (verdicts.Length == 0) return verdicts;
        Beside(() => (uint)maskcull_frame_test_boxes(frame, toClip, boxes, Count(boxes, 6), verdicts));
        return verdicts;
    }

    /// <summary>The verdict of a mesh: Visible too where an index is past the last vertex.</summary>
    public byte TestMesh(float[] toClip, float[] positions, ushort[] indices)
    {
        Check(toClip, positions, indices);
        return (byte)Beside(() => maskcull_frame_test_mesh(frame, toClip, positions, Stride, Count(positions, 3),
            indices, (UIntPtr)2, Count(indices, 1)));
    }

    public byte TestMesh(float[] toClip, float[] positions, uint[] indices)
    {
        Check(toClip, positions, indices);
        return (byte)Beside(() => maskcull_frame_test_mesh(frame, toClip, positions, Stride, Count(positions, 3),
            indices, (UIntPtr)4, Count(indices, 1)));
    }

    /// <summary>How near each pixel is at least, row by row from above.</summary>
    public ushort[] Picture()
    {
        var picture = new ushort[width * height];
        Throw(Beside(() => maskcull_frame_nearness(frame, picture, Count(picture, 1), (UIntPtr)width)));
        return picture;
    }

    // Through here while nothing else uses the frame. One that was disposed throws ObjectDisposedException.
    uint Alone(Func<uint> call)
    {
        gate.EnterWriteLock();
        try { return call(); }
        finally { gate.ExitWriteLock(); }
    }

    // Through here while others only test.
    uint Beside(Func<uint> call)
    {
        gate.EnterReadLock();
        try { return call(); }
        finally { gate.ExitReadLock(); }
    }

    static UIntPtr Count(Array array, int each) { return (UIntPtr)(array.Length / each); }

    static uint Number(Winding? winding)
    {
        if (winding == null) return OwnWinding;
        if (winding.Value > Winding.DropsCounterclockwise) throw new ArgumentException("there is no such winding");
        return (uint)winding.Value;
    }

    static void Check(float[] toClip, float[] positions, Array indices)
    {
        Demand(toClip, 16, true, "a matrix");
        Demand(positions, 3, false, "positions");
        Demand(indices, 3, false, "indices");
    }

    static void Demand(Array array, int each, bool isOne, string what)
    {
        if (array == null) throw new ArgumentNullException(what);
        if (array.Length % each == 0 && (!isOne || array.Length == each)) return;
        string wanted = (isOne ? "" : "a multiple of ") + each;
        throw new ArgumentException(what + ": " + array.Length + " numbers, and not " + wanted);
    }

    static void Throw(uint status)
    {
        if (status == 0) return;
        if (status == BadIndex) throw new IndexOutOfRangeException("an index is past the last vertex");
        if (status == NoMemory) throw new OutOfMemoryException();
        throw new InvalidOperationException("maskcull's status " + status);
    }
}
