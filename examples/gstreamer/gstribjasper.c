/* A plug-in for GStreamer: the element `ribjasperdec` decodes CD+G with libribjasper, and two type finders recognize .cdg
   files and raw subcode. Build it with the Makefile in this folder.

   gst-launch-1.0 filesrc location=song.cdg ! ribjasperdec ! videoconvert ! autovideosink
   gst-launch-1.0 filesrc location=dump.sub ! ribjasperdec layout=raw lead-in=30 ! videoconvert ! autovideosink
   gst-launch-1.0 filesrc location=song.cdg ! decodebin ! videoconvert ! autovideosink */
#include <gst/gst.h>
#include <gst/video/gstvideodecoder.h>
#include <gst/video/video.h>
#include <ribjasper.h>

#define PACK_CAPS "video/x-cdg"
#define RAW_CAPS "video/x-cd-subcode"

#define RIBJASPER_TYPE_DEC (ribjasper_dec_get_type())
G_DECLARE_FINAL_TYPE(RibjasperDec, ribjasper_dec, RIBJASPER, DEC, GstVideoDecoder)

struct _RibjasperDec {
    GstVideoDecoder parent;
    ribjasper_player player;
    /* The input is blocks of 96 bytes, or otherwise packs of 24 bytes. A block or four packs last 1/75 second. */
    gboolean is_raw;
    guint lead_in;
    gboolean is_begun;
    guint64 frames;
};
G_DEFINE_TYPE(RibjasperDec, ribjasper_dec, GST_TYPE_VIDEO_DECODER)

enum { PROP_0, PROP_LAYOUT, PROP_LEAD_IN };

#define TYPE_LAYOUT (layout_get_type())
static GType layout_get_type(void)
{
    static gsize once = 0;
    static const GEnumValue values[] = {
        {RIBJASPER_PACKS, "packs of 24 bytes, as in .cdg files", "packs"},
        {RIBJASPER_RAW, "raw blocks of 96 bytes, with error correction", "raw"},
        {0, NULL, NULL}};
    if (g_once_init_enter(&once))
        g_once_init_leave(&once, g_enum_register_static("RibjasperLayout", values));
    return once;
}

static GstStaticPadTemplate sink_template = GST_STATIC_PAD_TEMPLATE("sink", GST_PAD_SINK, GST_PAD_ALWAYS,
    GST_STATIC_CAPS(PACK_CAPS "; " RAW_CAPS));
static GstStaticPadTemplate source_template = GST_STATIC_PAD_TEMPLATE("src", GST_PAD_SRC, GST_PAD_ALWAYS,
    GST_STATIC_CAPS(GST_VIDEO_CAPS_MAKE("{ BGRx, RGBx, RGB16 }") ", width = 300, height = 216"));

/* Whether a call of the library succeeded. If not, posts an error message of the element with the answer in words. */
static gboolean is_done(RibjasperDec *self, gint32 answer, const gchar *what)
{
    char text[RIBJASPER_ANSWER_TEXT];
    if (answer == RIBJASPER_DONE)
        return TRUE;
    ribjasper_answer_text(answer, text);
    GST_ELEMENT_ERROR(self, STREAM, DECODE, (NULL), ("%s: %s", what, text));
    return FALSE;
}

/* Begins a new stream, and negotiates the format with the next element. */
static gboolean begin(RibjasperDec *self, GstVideoCodecState *input)
{
    GstVideoDecoder *decoder = GST_VIDEO_DECODER(self);
    GstVideoFormat format = GST_VIDEO_FORMAT_BGRx;
    GstVideoCodecState *output;
    GstCaps *allowed = gst_pad_get_allowed_caps(GST_VIDEO_DECODER_SRC_PAD(decoder));
    if (allowed != NULL && !gst_caps_is_empty(allowed)) {
        const gchar *name;
        allowed = gst_caps_fixate(allowed);
        name = gst_structure_get_string(gst_caps_get_structure(allowed, 0), "format");
        format = name != NULL ? gst_video_format_from_string(name) : format;
    }
    g_clear_pointer(&allowed, gst_caps_unref);
    if (!is_done(self, ribjasper_player_begin(&self->player, self->is_raw ? RIBJASPER_RAW : RIBJASPER_PACKS, self->lead_in),
                 "the player cannot begin the stream"))
        return FALSE;
    output = gst_video_decoder_set_output_state(decoder, format, RIBJASPER_WIDTH, RIBJASPER_HEIGHT, input);
    output->info.fps_n = RIBJASPER_BLOCKS_A_SECOND;
    output->info.fps_d = 1;
    gst_video_codec_state_unref(output);
    self->is_begun = TRUE;
    self->frames = 0;
    return gst_video_decoder_negotiate(decoder);
}

static gboolean start(GstVideoDecoder *decoder)
{
    RibjasperDec *self = RIBJASPER_DEC(decoder);
    gst_video_decoder_set_packetized(decoder, FALSE);
    /* A file source has no caps. Then the property `layout` determines the form of the input. */
    gst_video_decoder_set_needs_format(decoder, FALSE);
    self->is_begun = FALSE;
    return is_done(self, ribjasper_player_open(&self->player), "the player cannot be opened");
}

static gboolean stop(GstVideoDecoder *decoder)
{
    ribjasper_player_close(&RIBJASPER_DEC(decoder)->player);
    return TRUE;
}

static gboolean set_format(GstVideoDecoder *decoder, GstVideoCodecState *state)
{
    RibjasperDec *self = RIBJASPER_DEC(decoder);
    self->is_raw = gst_structure_has_name(gst_caps_get_structure(state->caps, 0), RAW_CAPS);
    return begin(self, state);
}

/* Splits the stream into pieces of 1/75 second. Extra bytes at the end are ignored. */
static GstFlowReturn parse(GstVideoDecoder *decoder, GstVideoCodecFrame *frame, GstAdapter *adapter, gboolean at_eos)
{
    (void)frame, (void)at_eos;
    if (gst_adapter_available(adapter) < RIBJASPER_BLOCK)
        return GST_VIDEO_DECODER_FLOW_NEED_DATA;
    gst_video_decoder_add_to_frame(decoder, RIBJASPER_BLOCK);
    return gst_video_decoder_have_frame(decoder);
}

static gboolean flush(GstVideoDecoder *decoder)
{
    RIBJASPER_DEC(decoder)->is_begun = FALSE;
    return TRUE;
}

/* Feeds or draws the piece of the stream in a buffer. On failure it posts an error message of the element. */
static gboolean play(RibjasperDec *self, GstBuffer *buffer)
{
    ribjasper_change change;
    GstMapInfo in;
    gint32 answer;
    if (!gst_buffer_map(buffer, &in, GST_MAP_READ)) {
        GST_ELEMENT_ERROR(self, RESOURCE, READ, (NULL), ("the input buffer cannot be mapped"));
        return FALSE;
    }
    if (self->is_raw)
        answer = ribjasper_player_feed_all(&self->player, in.data, in.size / RIBJASPER_BLOCK, &change);
    else
        answer = ribjasper_player_draw_all(&self->player, in.data, in.size / RIBJASPER_PACK, &change);
    gst_buffer_unmap(buffer, &in);
    return is_done(self, answer, "the blocks cannot be played");
}

/* Writes the screen into a buffer of the output. On failure it posts an error message of the element. */
static gboolean show(RibjasperDec *self, GstVideoCodecState *state, GstBuffer *buffer)
{
    GstVideoFrame out;
    guint32 pixels;
    guint stride;
    gint32 answer;
    if (!gst_video_frame_map(&out, &state->info, buffer, GST_MAP_WRITE)) {
        GST_ELEMENT_ERROR(self, RESOURCE, WRITE, (NULL), ("the output buffer cannot be mapped"));
        return FALSE;
    }
    pixels = GST_VIDEO_INFO_FORMAT(&state->info) == GST_VIDEO_FORMAT_RGBx ? RIBJASPER_RGBA
        : GST_VIDEO_INFO_FORMAT(&state->info) == GST_VIDEO_FORMAT_RGB16 ? RIBJASPER_RGB565 : RIBJASPER_BGRA;
    stride = GST_VIDEO_FRAME_PLANE_STRIDE(&out, 0);
    answer = ribjasper_player_pixels(&self->player, pixels, 0, 0, RIBJASPER_WIDTH, RIBJASPER_HEIGHT,
                                     GST_VIDEO_FRAME_PLANE_DATA(&out, 0), (gsize)stride * RIBJASPER_HEIGHT, stride);
    gst_video_frame_unmap(&out);
    return is_done(self, answer, "the picture cannot be written");
}

static GstFlowReturn handle_frame(GstVideoDecoder *decoder, GstVideoCodecFrame *frame)
{
    RibjasperDec *self = RIBJASPER_DEC(decoder);
    GstVideoCodecState *state;
    gboolean shown;
    GstFlowReturn flow;

    if (!self->is_begun && !begin(self, NULL))
        return GST_FLOW_NOT_NEGOTIATED;
    flow = gst_video_decoder_allocate_output_frame(decoder, frame);
    if (flow != GST_FLOW_OK) {
        gst_video_decoder_release_frame(decoder, frame);
        return flow;
    }
    state = gst_video_decoder_get_output_state(decoder);
    shown = play(self, frame->input_buffer) && show(self, state, frame->output_buffer);
    gst_video_codec_state_unref(state);
    if (!shown) {
        gst_video_decoder_release_frame(decoder, frame);
        return GST_FLOW_ERROR;
    }
    frame->pts = gst_util_uint64_scale(self->frames, GST_SECOND, RIBJASPER_BLOCKS_A_SECOND);
    frame->duration = GST_SECOND / RIBJASPER_BLOCKS_A_SECOND;
    self->frames++;
    return gst_video_decoder_finish_frame(decoder, frame);
}

static void set_property(GObject *object, guint id, const GValue *value, GParamSpec *spec)
{
    RibjasperDec *self = RIBJASPER_DEC(object);
    if (id == PROP_LAYOUT)
        self->is_raw = g_value_get_enum(value) == RIBJASPER_RAW;
    else if (id == PROP_LEAD_IN)
        self->lead_in = g_value_get_uint(value);
    else
        G_OBJECT_WARN_INVALID_PROPERTY_ID(object, id, spec);
}

static void get_property(GObject *object, guint id, GValue *value, GParamSpec *spec)
{
    RibjasperDec *self = RIBJASPER_DEC(object);
    if (id == PROP_LAYOUT)
        g_value_set_enum(value, self->is_raw ? RIBJASPER_RAW : RIBJASPER_PACKS);
    else if (id == PROP_LEAD_IN)
        g_value_set_uint(value, self->lead_in);
    else
        G_OBJECT_WARN_INVALID_PROPERTY_ID(object, id, spec);
}

static void ribjasper_dec_class_init(RibjasperDecClass *class)
{
    GstVideoDecoderClass *decoder = GST_VIDEO_DECODER_CLASS(class);
    GstElementClass *element = GST_ELEMENT_CLASS(class);
    GObjectClass *object = G_OBJECT_CLASS(class);
    object->set_property = set_property;
    object->get_property = get_property;
    g_object_class_install_property(object, PROP_LAYOUT, g_param_spec_enum("layout", "Layout",
        "the form of the input from a source without caps", TYPE_LAYOUT, RIBJASPER_PACKS, G_PARAM_READWRITE | G_PARAM_STATIC_STRINGS));
    g_object_class_install_property(object, PROP_LEAD_IN, g_param_spec_uint("lead-in", "Lead-in",
        "the number of blocks of the lead-in", 0, RIBJASPER_MOST_LEAD_IN, 0, G_PARAM_READWRITE | G_PARAM_STATIC_STRINGS));
    gst_element_class_set_static_metadata(element, "CD+G decoder", "Codec/Decoder/Video",
        "Draws the graphics of Compact Discs with a proved library", "The Ribjasper authors");
    gst_element_class_add_static_pad_template(element, &sink_template);
    gst_element_class_add_static_pad_template(element, &source_template);
    decoder->start = start;
    decoder->stop = stop;
    decoder->set_format = set_format;
    decoder->parse = parse;
    decoder->flush = flush;
    decoder->handle_frame = handle_frame;
}

static void ribjasper_dec_init(RibjasperDec *self)
{
    (void)self;
}

/* Finds .cdg files: each of the first packs is a CD+G pack or empty, and at least one is a CD+G pack. */
static void find_packs(GstTypeFind *find, gpointer data)
{
    enum { TESTED = 300 };
    guint graphics = 0, n;
    (void)data;
    for (n = 0; n < TESTED; n++) {
        const guint8 *pack = gst_type_find_peek(find, (gint64)n * RIBJASPER_PACK, RIBJASPER_PACK);
        if (pack == NULL)
            break;
        if ((pack[0] & 63) == 9)
            graphics++;
        else if ((pack[0] & 63) != 0)
            return;
    }
    if (graphics > 0 && (n == TESTED || gst_type_find_get_length(find) == (guint64)n * RIBJASPER_PACK))
        gst_type_find_suggest_empty_simple(find, GST_TYPE_FIND_LIKELY, PACK_CAPS);
}

/* Finds raw subcode: at least three quarters of the first blocks have a Q frame with a correct CRC. */
static void find_blocks(GstTypeFind *find, gpointer data)
{
    enum { TESTED = 75 };
    guint right = 0, n;
    (void)data;
    for (n = 0; n < TESTED; n++) {
        const guint8 *block = gst_type_find_peek(find, (gint64)n * RIBJASPER_BLOCK, RIBJASPER_BLOCK);
        guint8 q[12] = {0}, bit;
        ribjasper_q_frame frame;
        guint k, set = 0;
        if (block == NULL)
            break;
        for (k = 0; k < RIBJASPER_BLOCK; k++) {
            q[k / 8] = (guint8)(q[k / 8] | (block[k] >> 6 & 1) << (7 - k % 8));
            set += block[k] >> 6 & 1;
        }
        right += set > 0 && ribjasper_q_decode(q, &frame, &bit) != RIBJASPER_BAD_CHECK;
    }
    if (n > 0 && 4 * right >= 3 * n)
        gst_type_find_suggest_empty_simple(find, GST_TYPE_FIND_NEARLY_CERTAIN, RAW_CAPS);
}

static gboolean plugin_init(GstPlugin *plugin)
{
    GstCaps *packs = gst_caps_new_empty_simple(PACK_CAPS), *blocks = gst_caps_new_empty_simple(RAW_CAPS);
    gboolean is_done = gst_element_register(plugin, "ribjasperdec", GST_RANK_PRIMARY, RIBJASPER_TYPE_DEC) &&
        gst_type_find_register(plugin, PACK_CAPS, GST_RANK_SECONDARY, find_packs, "cdg", packs, NULL, NULL) &&
        gst_type_find_register(plugin, RAW_CAPS, GST_RANK_SECONDARY, find_blocks, "sub,raw", blocks, NULL, NULL);
    gst_caps_unref(packs);
    gst_caps_unref(blocks);
    return is_done;
}

#define PACKAGE "ribjasper"
GST_PLUGIN_DEFINE(GST_VERSION_MAJOR, GST_VERSION_MINOR, ribjasper, "CD+G and subcode of Compact Discs", plugin_init, VERSION,
                  "MIT/X11", PACKAGE, "https://ribjasper.example")
