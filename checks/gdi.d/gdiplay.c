/* gdiplay LIST: plays metafiles by GDI on a one-bit picture of 576 x 400 cells and writes PBMs.

   Every line of LIST has three words: IN.wmf, OUT.pbm, and `whole`, `records` or `through`. The picture is a DIB section of
   one bit a pixel, rows from the top, all 0, with colour 0 black and colour 1 white. The file's bytes are given to
   GDI (SetMetaFileBitsEx). With `whole`, PlayMetaFile plays them. With `records`, EnumMetaFile goes through the
   records and PlayMetaFileRecord plays each, with two changes:

     - META_BITBLT without a bitmap (12 words) becomes BitBlt from the device context onto itself. Wine draws
       nothing for it.
     - A colour 0x0100nnnn means entry nnnn of the selected palette. The palette has entry 0, black, and entry 1,
       white; of nnnn bit 0 alone is kept.

   With `through` it is the same, but META_BITBLT first copies its source to a bitmap of its own, all 0 before,
   and then does its operation from there: source and target never overlap, and outside the picture the source is 0.

   GDI starts with a black pen, a white brush, white as back colour, opaque background and R2_COPYPEN. The back colour
   is set to palette entry 1, also white: beside RGB white, Wine draws a hatch of palette entry 1 in two colours. */
#include <windows.h>
#include <stdio.h>
#include <stdlib.h>
#include <string.h>

enum { WIDTH = 576, HEIGHT = 400, STRIDE = 72 };

static HBITMAP make_bitmap(HDC dc, int width, int height, unsigned char **bits)
{
    struct { BITMAPINFOHEADER header; RGBQUAD colours[2]; } info;
    memset(&info, 0, sizeof info);
    info.header.biSize = sizeof info.header;
    info.header.biWidth = width;
    info.header.biHeight = -height;
    info.header.biPlanes = 1;
    info.header.biBitCount = 1;
    info.colours[1].rgbRed = info.colours[1].rgbGreen = info.colours[1].rgbBlue = 255;
    return CreateDIBSection(dc, (BITMAPINFO *)&info, DIB_RGB_COLORS, (void **)bits, NULL, 0);
}

static void copy_through(HDC dc, int x, int y, int width, int height, int sx, int sy, DWORD operation)
{
    unsigned char *bits;
    HDC second = CreateCompatibleDC(dc);
    HBITMAP bitmap = make_bitmap(dc, width, height, &bits);
    HGDIOBJ first = SelectObject(second, bitmap);
    memset(bits, 0, (width + 31) / 32 * 4 * height);
    BitBlt(second, 0, 0, width, height, dc, sx, sy, SRCCOPY);
    BitBlt(dc, x, y, width, height, second, 0, 0, operation);
    SelectObject(second, first);
    DeleteDC(second);
    DeleteObject(bitmap);
}

static int CALLBACK record(HDC dc, HANDLETABLE *table, METARECORD *given, int objects, LPARAM through)
{
    static WORD copy[32768];
    METARECORD *r = (METARECORD *)copy;
    WORD *p = r->rdParm;
    if (given->rdSize * 2 > sizeof copy)
        return 0;
    memcpy(copy, given, given->rdSize * 2);
    switch (r->rdFunction) {
    case META_BITBLT:
        if (r->rdSize == 12) {
            int x = (short)p[8], y = (short)p[7], width = (short)p[6], height = (short)p[5];
            int sx = (short)p[3], sy = (short)p[2];
            DWORD operation = p[0] | (DWORD)p[1] << 16;
            if (through)
                copy_through(dc, x, y, width, height, sx, sy, operation);
            else
                BitBlt(dc, x, y, width, height, dc, sx, sy, operation);
            return 1;
        }
        break;
    case META_SETBKCOLOR:
        p[0] &= 1;
        break;
    case META_CREATEBRUSHINDIRECT:
        p[1] &= 1;
        break;
    case META_CREATEPENINDIRECT:
        p[3] &= 1;
        break;
    }
    PlayMetaFileRecord(dc, table, r, objects);
    return 1;
}

static int play(const char *in, const char *out, const char *how)
{
    static unsigned char data[65536], row[STRIDE];
    struct { WORD version, entries; PALETTEENTRY entry[2]; } palette = {0x0300, 2, {{0, 0, 0, 0}, {255, 255, 255, 0}}};
    unsigned char *bits;
    UINT size;
    HDC dc;
    HBITMAP picture;
    HPALETTE colours;
    HMETAFILE file;
    HGDIOBJ first;
    FILE *f = fopen(in, "rb");
    int x, y;

    if (!f)
        return fprintf(stderr, "gdiplay: cannot read %s\n", in), 0;
    size = fread(data, 1, sizeof data, f);
    fclose(f);
    dc = CreateCompatibleDC(NULL);
    picture = make_bitmap(dc, WIDTH, HEIGHT, &bits);
    colours = CreatePalette((LOGPALETTE *)&palette);
    file = SetMetaFileBitsEx(size, data);
    if (!dc || !picture || !colours || !file)
        return fprintf(stderr, "gdiplay: %s: GDI refuses the file or the picture\n", in), 0;
    memset(bits, 0, STRIDE * HEIGHT);
    first = SelectObject(dc, picture);
    SelectPalette(dc, colours, FALSE);
    RealizePalette(dc);
    SetBkColor(dc, PALETTEINDEX(1));
    if (!strcmp(how, "whole"))
        PlayMetaFile(dc, file);
    else
        EnumMetaFile(dc, file, record, !strcmp(how, "through"));
    GdiFlush();
    f = fopen(out, "wb");
    if (!f)
        return fprintf(stderr, "gdiplay: cannot write %s\n", out), 0;
    fprintf(f, "P4\n%d %d\n", WIDTH, HEIGHT);
    for (y = 0; y < HEIGHT; y++) {
        for (x = 0; x < STRIDE; x++)
            row[x] = ~bits[y * STRIDE + x];
        fwrite(row, 1, STRIDE, f);
    }
    fclose(f);
    SelectObject(dc, first);
    DeleteMetaFile(file);
    DeleteDC(dc);
    DeleteObject(picture);
    DeleteObject(colours);
    return 1;
}

int main(int count, char **words)
{
    char line[1024], in[256], out[256], how[256];
    int fine = 1;
    FILE *list = count == 2 ? fopen(words[1], "r") : NULL;
    if (!list)
        return fprintf(stderr, "usage: gdiplay LIST\n"), 2;
    while (fgets(line, sizeof line, list))
        if (sscanf(line, "%255s %255s %255s", in, out, how) == 3)
            fine &= play(in, out, how);
    fclose(list);
    return !fine;
}
