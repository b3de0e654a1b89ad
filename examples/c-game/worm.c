/* A game in C for SDCC: a worm creeps through a garden, eats berries and grows, and beetles are in its way. The stick turns it to
   the left and to the right, and the button hurries it. README.md says how it is built and what makes it pass.

   A place on the screen is its offset in video RAM, 0 to 03FF: a step down is 1, and a step to the left is 20h, since the monitor
   stands on its side. Tiles have their ASCII codes. Main code plays and draws; the NMI routine only reads, counts and sounds. */
typedef unsigned char byte;
typedef unsigned int word;

#define IN0 (*(volatile byte *)0x6000)
#define IN1 (*(volatile byte *)0x6800)
#define LOUDNESS (*(volatile byte *)0x6806)
#define ENABLE (*(volatile byte *)0x7001)
#define PITCH (*(volatile byte *)0x7800)
#define VIDEO ((volatile byte *)0x5000)
#define AT(column, row) ((31 - (column)) << 5 | (row))

#define LEFT 4
#define RIGHT 8
#define FIRE 16

#define BLANK ' '
#define BRICK '#'
#define BODY 'o'
#define HEAD '@'
#define BERRY '*'
#define FRUIT '$'
#define BEETLE '&'
#define STONE '%'

#define ATTRACT 0
#define COIN 1
#define READY 2
#define PLAY 3
#define LOST 4
#define OVER 5

/* An array with a byte as index needs no test of it, as long as it begins in the pages 40 and 41. The farthest that an element can be
   is 42FF, also where SDCC adds the index by bytes, with a carry that galcert does not know. The stack is above 4380. */
byte shadow[128];               /* what goes out to the object RAM: 32 rows of 2 bytes, 8 sprites and 8 shots of 4 */
byte score[6], best[6];         /* digits, the highest first */
byte beetle_low[4], beetle_high[4], beetle_way[4];
byte lows[256], highs[256];     /* the places of the worm's parts, from `rear` to `front` */

volatile byte awake;            /* 1 once the NMI routine has been there */
volatile byte held, pressed;    /* the stick and the button: what is held, what was pressed of it */
volatile byte started;          /* what was pressed of the start buttons */
volatile byte credit;           /* coins, 9 at most */
volatile byte timer, step_wait, beetle_wait, fruit_wait; /* count down to 0, a frame a step */
volatile byte frames;           /* counts frames */
volatile byte noise, pitch;     /* frames that are left of a sound, its pitch */
volatile signed char slide;     /* by how much the pitch changes */
byte held_before, starts_before, coin_fell;

byte state, fresh;              /* `fresh` is 1 in the first frame of a state */
byte lives, level, pace;        /* `pace`: frames a step of the worm takes */
byte hungry, planted;           /* berries that are left in this level; 1 while one is there */
byte beetles, hurt;
byte way, front, rear, grow;    /* the worm: which of `steps` it takes, its ends in `lows` and `highs`, parts that it still gets */
word head, next, spot, at;      /* places */
word seed;
byte tile, count, index, mine, other;

static const word steps[4] = {0x03e0, 0x0001, 0x0020, 0x03ff}; /* right, down, left, up */
static const byte waves[32] = {0, 1, 2, 3, 4, 5, 6, 6, 7, 7, 7, 6, 6, 5, 4, 3, 2, 1, 0, 0, 0, 0, 0, 0, 0, 0, 0, 0, 0, 0, 0, 1};
static const byte hues[32] = {
    7, 0, 1, 2, 2, 2, 7, 4, 7, 2, 2, 2, 1, 2, 5, 2, 6, 2, 2, 2, 2, 4, 2, 2, 2, 2, 2, 2, 2, 2, 1, 7,
};

/* ---- the vertical blank */

void coins(void) {
    if (!(held & 3)) {
        coin_fell = 0;
        return;
    }
    if (coin_fell) return;
    coin_fell = 1;
    if (credit < 9) ++credit;
}

void sing(void) {
    if (!noise) {
        PITCH = 0xff;
        return;
    }
    --noise;
    pitch += slide;
    PITCH = pitch;
}

void blank(void) {
    held = IN0;
    pressed |= held & ~held_before;
    held_before = held;
    started |= IN1 & ~starts_before;
    starts_before = IN1;
    coins();
    sing();
    ++frames;
    if (timer) --timer;
    if (step_wait) --step_wait;
    if (beetle_wait) --beetle_wait;
    if (fruit_wait) --fruit_wait;
    awake = 1;
}

/* ---- places, texts, numbers */

byte random(void) {
    seed = seed * 5 + 0x3619;
    return seed >> 8;
}

void put(byte what) {
    VIDEO[at & 0x3ff] = what;
    at -= 0x20;
}

void put_down(byte what) {
    VIDEO[at & 0x3ff] = what;
    ++at;
}

void print(const char *from) {
    static const char *letter;
    letter = from;
    while (*letter) put(*letter++);
}

void number(const byte *from) {
    static const byte *digit;
    digit = from;
    count = 6;
    do {
        put('0' + *digit++);
    } while (--count);
}

void show_score(void) {
    at = AT(3, 1);
    number(score);
}

void show_best(void) {
    at = AT(22, 1);
    number(best);
}

void show_lives(void) {
    at = AT(3, 31);
    for (count = 5; count; --count) put(count > lives ? BLANK : HEAD);
}

void show_level(void) {
    at = AT(12, 31);
    print("LEVEL ");
    put('0' + level);
    at = AT(21, 31);
    print("COINS ");
    put('0' + credit);
}

void wall(void) {
    count = 32;
    do {
        put(BRICK);
    } while (--count);
}

void hedge(void) {
    count = 28;
    do {
        put_down(BRICK);
    } while (--count);
}

void clear(void) {
    index = 0;
    do {
        VIDEO[index] = BLANK;
        VIDEO[0x100 + index] = BLANK;
        VIDEO[0x200 + index] = BLANK;
        VIDEO[0x300 + index] = BLANK;
    } while (++index);
}

/* Draws an empty garden. The columns that are not seen are hedges too, so nothing gets there. */
void garden(void) {
    clear();
    at = AT(3, 0);
    print("SCORE");
    at = AT(22, 0);
    print("BEST");
    at = AT(0, 2);
    wall();
    at = AT(0, 30);
    wall();
    at = AT(0, 3);
    hedge();
    at = AT(1, 3);
    hedge();
    at = AT(2, 3);
    hedge();
    at = AT(29, 3);
    hedge();
    at = AT(30, 3);
    hedge();
    at = AT(31, 3);
    hedge();
    show_score();
    show_best();
    show_level();
}

/* ---- points */

void carry(void) {
    while (index && score[index] > 9) {
        score[index] -= 10;
        --index;
        ++score[index];
    }
}

void award(byte tens) {
    if (state != PLAY) return;
    index = 4;
    score[4] += tens;
    carry();
    score[0] &= 7;
    show_score();
}

/* A score above the best one is the best from now on. */
void keep(void) {
    index = 6;
    do {
        --index;
        best[index] = score[index];
    } while (index);
    show_best();
}

void judge(void) {
    for (index = 0; index < 6; ++index) {
        mine = score[index];
        other = best[index];
        if (mine < other) return;
        if (mine > other) {
            keep();
            return;
        }
    }
}

void no_score(void) {
    index = 6;
    do {
        --index;
        score[index] = 0;
    } while (index);
}

/* ---- the worm */

void sound(byte long_for, byte from) {
    noise = long_for;
    pitch = from;
}

void born(void) {
    way = 0;
    head = AT(6, 27);
    front = 0;
    rear = 0;
    lows[0] = (byte)head;
    highs[0] = head >> 8;
    grow = 5;
    hurt = 0;
    VIDEO[head & 0x3ff] = HEAD;
}

void look(void) {
    next = (head + steps[way & 3]) & 0x3ff;
    tile = VIDEO[next & 0x3ff];
}

void shrink(void) {
    if (grow) {
        --grow;
        return;
    }
    spot = highs[rear];
    spot = spot << 8 | lows[rear];
    VIDEO[spot & 0x3ff] = BLANK;
    ++rear;
}

void creep(void) {
    VIDEO[head & 0x3ff] = BODY;
    head = next;
    VIDEO[head & 0x3ff] = HEAD;
    ++front;
    lows[front] = (byte)head;
    highs[front] = head >> 8;
    shrink();
}

void eat(void) {
    if ((byte)(front - rear) < 200) grow += 4;
    if (tile == BERRY) {
        planted = 0;
        if (hungry) --hungry;
        award(level);
        slide = 3;
        sound(8, 0x80);
        return;
    }
    award(level + 4);
    slide = 5;
    sound(16, 0x60);
}

void move(void) {
    look();
    if (tile == BERRY || tile == FRUIT) {
        eat();
        creep();
    } else if (tile == BLANK)
        creep();
    else
        hurt = 1;
}

void steer(void) {
    if (pressed & LEFT) way = (way + 3) & 3;
    if (pressed & RIGHT) way = (way + 1) & 3;
    pressed = 0;
}

/* Where nobody steers, the worm looks for a free place. */
void wander(void) {
    if (!(random() & 15)) way = (way + 1) & 3;
    look();
    if (tile == BLANK || tile == BERRY) return;
    way = (way + 1) & 3;
    look();
    if (tile == BLANK || tile == BERRY) return;
    way = (way + 2) & 3;
}

/* ---- berries and beetles */

/* Some place in the garden: `tile` is BLANK if it is free. */
void choose(void) {
    spot = random() & 3;
    spot = spot << 8 | random();
    tile = BRICK;
    if ((spot & 31) < 4) return;
    if ((spot & 31) > 28) return;
    tile = VIDEO[spot & 0x3ff];
}

void plant(void) {
    if (planted) return;
    choose();
    if (tile != BLANK) return;
    VIDEO[spot & 0x3ff] = BERRY;
    planted = 1;
}

void ripen(void) {
    if (fruit_wait) return;
    fruit_wait = 200;
    if (random() & 3) return;
    choose();
    if (tile == BLANK) VIDEO[spot & 0x3ff] = FRUIT;
}

void hatch(void) {
    index = 0;
    while (index < 4 && index < beetles) {
        do {
            choose();
        } while (tile != BLANK);
        beetle_low[index] = (byte)spot;
        beetle_high[index] = spot >> 8;
        beetle_way[index] = random();
        VIDEO[spot & 0x3ff] = BEETLE;
        ++index;
    }
}

/* Lays some stones, but none in the row where the worm begins. */
void scatter(void) {
    index = 40;
    do {
        choose();
        if (tile == BLANK && (spot & 31) != 27) VIDEO[spot & 0x3ff] = STONE;
    } while (--index);
}

void crawl(void) {
    spot = beetle_high[index];
    spot = spot << 8 | beetle_low[index];
    next = (spot + steps[beetle_way[index] & 3]) & 0x3ff;
    tile = VIDEO[next & 0x3ff];
    if (tile == HEAD) hurt = 1;
    if (tile != BLANK || !(random() & 7)) {
        beetle_way[index] = random();
        return;
    }
    VIDEO[spot & 0x3ff] = BLANK;
    VIDEO[next & 0x3ff] = BEETLE;
    beetle_low[index] = (byte)next;
    beetle_high[index] = next >> 8;
}

void crawl_all(void) {
    if (beetle_wait) return;
    beetle_wait = 10;
    index = beetles;
    while (index) {
        --index;
        crawl();
    }
}

/* ---- the states */

void enter(byte which) {
    state = which;
    fresh = 1;
}

/* The title's rows go to and fro. */
void swing(void) {
    shadow[2 * 6] = waves[frames >> 1 & 31];
    shadow[2 * 7] = waves[(frames >> 1) + 8 & 31];
    shadow[2 * 8] = waves[(frames >> 1) + 16 & 31];
}

void rest(void) {
    shadow[2 * 6] = 0;
    shadow[2 * 7] = 0;
    shadow[2 * 8] = 0;
}

void attract_page(void) {
    fresh = 0;
    level = 1;
    beetles = 3;
    planted = 0;
    garden();
    at = AT(8, 6);
    print("\\ /   \\ /   \\ /");
    at = AT(8, 7);
    print(" WORM IN A GARDEN");
    at = AT(8, 8);
    print("/ \\   / \\   / \\");
    at = AT(9, 12);
    print("* A BERRY   10");
    at = AT(9, 14);
    print("$ A FRUIT   50");
    at = AT(9, 16);
    print("& A BEETLE");
    at = AT(9, 21);
    print("INSERT A COIN");
    born();
    hatch();
}

void attract(void) {
    if (fresh) attract_page();
    swing();
    plant();
    crawl_all();
    if (!step_wait) {
        step_wait = 6;
        wander();
        move();
    }
    if (hurt) fresh = 1;
    if (credit) enter(COIN);
}

void coin(void) {
    if (fresh) {
        fresh = 0;
        rest();
        garden();
        at = AT(8, 14);
        print("PUSH START BUTTON");
        started = 0;
    }
    show_level();
    if (!(started & 3)) return;
    started = 0;
    --credit;
    lives = 3;
    level = 1;
    hungry = 8;
    no_score();
    enter(READY);
}

/* Begins a level, or goes on with it. */
void ready(void) {
    if (fresh) {
        fresh = 0;
        rest();
        beetles = level + 1;
        if (beetles > 4) beetles = 4;
        pace = 8;
        if (level > 2) pace = 6;
        if (level > 5) pace = 4;
        planted = 0;
        garden();
        show_lives();
        at = AT(12, 14);
        print("GET READY");
        timer = 90;
        slide = 2;
        sound(30, 0x40);
    }
    if (timer) return;
    at = AT(12, 14);
    print("         ");
    born();
    hatch();
    scatter();
    pressed = 0;
    enter(PLAY);
}

void play(void) {
    steer();
    plant();
    ripen();
    crawl_all();
    if (held & FIRE && step_wait > 3) step_wait = 3;
    if (!step_wait) {
        step_wait = pace;
        move();
    }
    if (hurt) {
        enter(LOST);
        return;
    }
    if (hungry) return;
    hungry = 8;
    if (level < 9) ++level;
    enter(READY);
}

void lost(void) {
    if (fresh) {
        fresh = 0;
        if (lives) --lives;
        VIDEO[head & 0x3ff] = 'X';
        timer = 80;
        slide = -2;
        sound(60, 0xc0);
    }
    if (timer) return;
    if (lives)
        enter(READY);
    else
        enter(OVER);
}

void over(void) {
    if (fresh) {
        fresh = 0;
        judge();
        at = AT(11, 14);
        print(" GAME OVER ");
        timer = 200;
    }
    if (timer) return;
    enter(ATTRACT);
}

void paint(void) {
    index = 32;
    do {
        --index;
        shadow[(byte)(2 * index + 1)] = hues[index & 31];
    } while (index);
}

void main(void) {
    paint();
    seed = 0x1234;
    best[2] = 1;
    LOUDNESS = 1;
    enter(ATTRACT);
    ENABLE = 1;
    for (;;) {
        while (!awake)
            ;
        awake = 0;
        random();
        if (state == ATTRACT)
            attract();
        else if (state == COIN)
            coin();
        else if (state == READY)
            ready();
        else if (state == PLAY)
            play();
        else if (state == LOST)
            lost();
        else
            over();
    }
}
