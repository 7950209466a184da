/* A player in C++ that uses the library. It draws only the changes of the picture, and seeks in both directions from
   checkpoints in memory.

   player BLOCKS.. <stream   seeks to each of these numbers of blocks of a raw stream, in the given order, and writes the
                             screen there to the file BLOCKS.ppm */
#include "ribjasper.h"

#include <algorithm>
#include <array>
#include <cstdio>
#include <cstdlib>
#include <fstream>
#include <iostream>
#include <iterator>
#include <map>
#include <stdexcept>
#include <string>
#include <vector>

/* An open player, which its destructor closes. It can be moved, but not copied. */
class Player {
public:
    Player()
    {
        check(ribjasper_player_open(&player));
    }
    ~Player()
    {
        ribjasper_player_close(&player);
    }
    Player(const Player &) = delete;
    Player &operator=(const Player &) = delete;
    Player(Player &&other) noexcept : player(other.player)
    {
        other.player = RIBJASPER_CLOSED_PLAYER;
    }

    ribjasper_change feed(const uint8_t *blocks, size_t count)
    {
        ribjasper_change change;
        check(ribjasper_player_feed_all(&player, blocks, count, &change));
        return change;
    }

    /* Writes a part of the screen, as red, green and blue, into a picture of the whole screen. */
    void draw(const ribjasper_change &part, std::vector<uint8_t> &picture) const
    {
        size_t place = 3 * (RIBJASPER_WIDTH * static_cast<size_t>(part.top) + part.left);
        check(ribjasper_player_pixels(&player, RIBJASPER_RGB, part.left, part.top, part.right - part.left,
                                      part.bottom - part.top, picture.data() + place, picture.size() - place,
                                      3 * RIBJASPER_WIDTH));
    }

    std::array<uint8_t, RIBJASPER_CHECKPOINT> save() const
    {
        std::array<uint8_t, RIBJASPER_CHECKPOINT> file;
        check(ribjasper_player_save(&player, file.data()));
        return file;
    }

    void load(const std::array<uint8_t, RIBJASPER_CHECKPOINT> &file)
    {
        uint32_t byte;
        check(ribjasper_player_load(&player, file.data(), &byte));
    }

private:
    static void check(int32_t answer)
    {
        std::array<char, RIBJASPER_ANSWER_TEXT> text;
        if (answer == RIBJASPER_DONE)
            return;
        ribjasper_answer_text(answer, text.data());
        throw std::runtime_error(text.data());
    }

    ribjasper_player player = RIBJASPER_CLOSED;
};

/* A stream with its player, its current picture, and checkpoints for seeking back. */
class Show {
public:
    explicit Show(std::vector<uint8_t> bytes) : stream(std::move(bytes)), picture(RIBJASPER_PICTURE)
    {
        checkpoints.emplace(0, player.save());
    }

    size_t blocks() const
    {
        return stream.size() / RIBJASPER_BLOCK;
    }

    /* Seeks to a block, from the current position or from the last checkpoint before the block. Returns the picture. */
    const std::vector<uint8_t> &at(size_t moment)
    {
        auto before = std::prev(checkpoints.upper_bound(moment));
        if (moment < now || before->first > now) {
            player.load(before->second);
            now = before->first;
            player.draw(whole, picture);
        }
        while (now < moment)
            step(std::min(moment - now, interval - now % interval));
        return picture;
    }

private:
    /* Feeds some blocks, draws the changes, and stores a checkpoint every ten seconds. */
    void step(size_t count)
    {
        ribjasper_change change = player.feed(stream.data() + RIBJASPER_BLOCK * now, count);
        now += count;
        if (change.colours)
            player.draw(whole, picture);
        else if (change.left < change.right)
            player.draw(change, picture);
        if (now % interval == 0)
            checkpoints.emplace(now, player.save());
    }

    static constexpr size_t interval = 10 * RIBJASPER_BLOCKS_A_SECOND;
    static constexpr ribjasper_change whole = { 0, 0, RIBJASPER_WIDTH, RIBJASPER_HEIGHT, 0, 0 };
    std::vector<uint8_t> stream, picture;
    std::map<size_t, std::array<uint8_t, RIBJASPER_CHECKPOINT>> checkpoints;
    Player player;
    size_t now = 0;
};

constexpr ribjasper_change Show::whole;

static void write(const std::vector<uint8_t> &picture, const std::string &name)
{
    std::ofstream file(name, std::ios::binary);
    file << "P6\n" << RIBJASPER_WIDTH << ' ' << RIBJASPER_HEIGHT << "\n255\n";
    file.write(reinterpret_cast<const char *>(picture.data()), static_cast<std::streamsize>(picture.size()));
    file.close();
    if (!file)
        throw std::runtime_error(name + " cannot be written");
}

int main(int argc, char **argv)
{
    try {
        std::cin.sync_with_stdio(false);
        Show show(std::vector<uint8_t>(std::istreambuf_iterator<char>(std::cin), {}));
        for (int i = 1; i < argc; i++) {
            size_t moment = std::strtoul(argv[i], nullptr, 10);
            if (moment > show.blocks())
                throw std::runtime_error("there is no block " + std::string(argv[i]));
            write(show.at(moment), std::to_string(moment) + ".ppm");
        }
    } catch (const std::exception &error) {
        std::cerr << "player: " << error.what() << '\n';
        return 1;
    }
    return 0;
}
