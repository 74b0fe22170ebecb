// A compositor of moving sprites: see --help.
#include "../common/files.h"
#include "scene.h"

#include <SDL.h>
#include <chrono>
#include <cstdio>
#include <cstdlib>
#include <cstring>
#include <iostream>
#include <memory>
#include <stdexcept>
#include <string>

namespace {

const char usage[] =
    "usage: sprites [OPTION].. ATLAS\n"
    "Moves sprites over a sky; ATLAS is a picture with square sprites side by side.\n"
    "\n"
    "  --count N     how many sprites (3000)\n"
    "  --size WxH    the size of the window (960x540)\n"
    "  --light       composite in linear light of 16 bits a channel, and not in the bytes of the file\n"
    "  --threads N   paint N bands of rows at once (1)\n"
    "  --frames N    end after so many frames, and not when the window is closed\n"
    "  --save PNG    write the last frame\n"
    "  --help        print this\n"
    "\n"
    "The window's title tells the frames a second, and a line at the end the time that a frame took. Q or\n"
    "Escape end. It needs a screen; SDL_VIDEODRIVER=dummy does without one.\n"
    "The status is 0, 1 after a file that can't be read or written, or 2 after another use.\n";

// What was asked for can't be meant.
struct UsageError : std::runtime_error {
    using std::runtime_error::runtime_error;
};

struct Options {
    std::string atlas, save;
    int count = 3000, width = 960, height = 540, threads = 1, frames = 0;
    bool in_light = false;
};

int number_of(const std::string &option, const std::string &text, int most) {
    std::size_t used = 0;
    int number = 0;
    try {
        number = std::stoi(text, &used);
    } catch (const std::logic_error &) {
        used = 0;
    }
    if (used == 0 || used != text.size() || number < 1 || number > most)
        throw UsageError(option + " takes a number from 1 to " + std::to_string(most) + ", and not " + text);
    return number;
}

void set_option(Options &options, const std::string &word, const std::string &value) {
    const std::size_t cross = value.find('x');
    if (word == "--count")
        options.count = number_of(word, value, 1000000);
    else if (word == "--threads")
        options.threads = number_of(word, value, 256);
    else if (word == "--frames")
        options.frames = number_of(word, value, 1000000000);
    else if (word == "--save")
        options.save = value;
    else if (word == "--size" && cross != std::string::npos) {
        options.width = number_of(word, value.substr(0, cross), 16384);
        options.height = number_of(word, value.substr(cross + 1), 16384);
    } else if (word == "--size")
        throw UsageError("--size takes a width and a height, as 960x540, and not " + value);
    else
        throw UsageError("there is no option " + word);
}

// Prints what waits on standard output, or throws what is wrong.
void end_output() {
    char sentence[FILE_SENTENCE];
    if (!file_end_output(sentence))
        throw std::runtime_error(sentence);
}

Options read_options(int argc, char **argv) {
    Options options;
    for (int i = 1; i < argc; i++) {
        const std::string word = argv[i];
        if (word == "--help") {
            std::printf("%sIt was built to read %s.\n", usage, file_kinds());
            end_output();
            std::exit(EXIT_SUCCESS);
        } else if (word == "--light")
            options.in_light = true;
        else if (word.rfind("--", 0) == 0 && i + 1 == argc)
            throw UsageError(word + ": there is no such option, or its value is missing");
        else if (word.rfind("--", 0) == 0)
            set_option(options, word, argv[++i]);
        else if (options.atlas.empty())
            options.atlas = word;
        else
            throw UsageError(word + ": there is one atlas");
    }
    if (options.atlas.empty())
        throw UsageError("name an atlas: a file with a picture");
    return options;
}

// Throws what SDL says, where it failed.
template <typename T> T *insist(T *made) {
    if (!made)
        throw std::runtime_error(SDL_GetError());
    return made;
}

void insist(int status) {
    if (status != 0)
        throw std::runtime_error(SDL_GetError());
}

using Surface = std::unique_ptr<SDL_Surface, decltype(&SDL_FreeSurface)>;

// A window, and the bytes that it shows: blue, green, red, alpha, whatever the screen has.
class Window {
  public:
    Window(int width, int height) : bytes(nullptr, SDL_FreeSurface) {
        insist(SDL_Init(SDL_INIT_VIDEO));
        window =
            insist(SDL_CreateWindow("sprites", SDL_WINDOWPOS_UNDEFINED, SDL_WINDOWPOS_UNDEFINED, width, height, 0));
        bytes.reset(insist(SDL_CreateRGBSurfaceWithFormat(0, width, height, 32, SDL_PIXELFORMAT_BGRA32)));
        insist(SDL_SetSurfaceBlendMode(bytes.get(), SDL_BLENDMODE_NONE));
    }
    ~Window() { SDL_Quit(); }
    Window(const Window &) = delete;
    Window &operator=(const Window &) = delete;

    // What is shown, as sRGB.
    pix_bitmap screen() const {
        pix_bitmap screen = pix_bitmap_of(bytes->pixels, bytes->w, bytes->h, PIX_FORMAT_SBGRA8);
        screen.stride = bytes->pitch;
        return screen;
    }

    void show() {
        insist(SDL_BlitSurface(bytes.get(), nullptr, insist(SDL_GetWindowSurface(window)), nullptr));
        insist(SDL_UpdateWindowSurface(window));
    }

    void set_title(const std::string &title) { SDL_SetWindowTitle(window, title.c_str()); }

  private:
    SDL_Window *window;
    Surface bytes;
};

// Whether the user ended the program.
bool ended() {
    SDL_Event event;
    bool is_end = false;
    while (SDL_PollEvent(&event)) {
        const bool is_key = event.type == SDL_KEYDOWN;
        is_end |= event.type == SDL_QUIT ||
                  (is_key && (event.key.keysym.sym == SDLK_q || event.key.keysym.sym == SDLK_ESCAPE));
    }
    return is_end;
}

void save(const std::string &name, const pix_bitmap &screen) {
    std::vector<std::uint8_t> bytes(std::size_t{4} * screen.width * screen.height);
    const file_picture file = {bytes.data(), screen.width, screen.height};
    char sentence[FILE_SENTENCE];
    insist(convert(screen, pix_bitmap_of(bytes.data(), screen.width, screen.height, PIX_FORMAT_SRGBA8)));
    if (!file_write_png(name.c_str(), &file, sentence))
        throw std::runtime_error(sentence);
}

using Clock = std::chrono::steady_clock;

double seconds_since(Clock::time_point start) {
    return std::chrono::duration<double>(Clock::now() - start).count();
}

// Seconds that parts of all frames took.
struct Times {
    double painted = 0, encoded = 0, shown = 0;
    int frames = 0;

    void print(const Options &options) const {
        const double all = painted + encoded + shown, count = frames / 1000.0;
        std::printf(
            "%d sprites, %d x %d, %s, %d thread%s: %d frames, %.1f a second; a frame took %.2f ms: painted %.2f, "
            "encoded %.2f, shown %.2f\n",
            options.count, options.width, options.height, options.in_light ? "16 bit light" : "bytes", options.threads,
            options.threads > 1 ? "s" : "", frames, frames / all, all / count, painted / count, encoded / count,
            shown / count);
    }
};

template <typename Kind> Times play(const Options &options, Window &window, const file_picture &atlas) {
    Scene<Kind> scene(atlas, options.width, options.height, options.count, options.threads);
    Times times, then;
    for (Clock::time_point start = Clock::now(), second = start;
         !ended() && (!options.frames || times.frames < options.frames);) {
        start = Clock::now();
        scene.move();
        scene.paint();
        times.painted += seconds_since(start);
        start = Clock::now();
        scene.encode(window.screen());
        times.encoded += seconds_since(start);
        start = Clock::now();
        window.show();
        times.shown += seconds_since(start);
        times.frames++;
        if (seconds_since(second) >= 0.5) {
            window.set_title(
                "sprites: " + std::to_string(static_cast<int>((times.frames - then.frames) / seconds_since(second))) +
                " frames a second");
            then = times;
            second = Clock::now();
        }
    }
    return times;
}

void run(const Options &options) {
    char sentence[FILE_SENTENCE];
    file_picture atlas = {};
    if (!file_read(options.atlas.c_str(), &atlas, sentence))
        throw std::runtime_error(sentence);
    const std::unique_ptr<std::uint8_t, decltype(&std::free)> owned(atlas.bytes, std::free);
    insist(pix_check_library());
    Window window(options.width, options.height);
    const Times times = options.in_light ? play<Light>(options, window, atlas) : play<Bytes>(options, window, atlas);
    if (!options.save.empty())
        save(options.save, window.screen());
    times.print(options);
}

} // namespace

int main(int argc, char **argv) {
    try {
        file_begin();
        run(read_options(argc, argv));
        end_output();
        return EXIT_SUCCESS;
    } catch (const UsageError &error) {
        std::cerr << "sprites: " << error.what() << "\nsprites: try sprites --help\n";
        return 2;
    } catch (const std::exception &error) {
        std::cerr << "sprites: " << error.what() << '\n';
        return EXIT_FAILURE;
    }
}
