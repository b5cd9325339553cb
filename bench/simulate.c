/* Simulates an AIGER file, 64 vectors a word, as `workbench simulate` does: the same gates in the same order, by level and
   then by place in the file, on the same words; prints the same exclusive or of all words of the outputs. The file has its
   gates in order, as the binary form has.

       simulate FILE WORDS ROUNDS */
#include <stdint.h>
#include <stdio.h>
#include <stdlib.h>
#include <string.h>

struct gate {
    uint32_t a, b;
};

struct netlist {
    uint32_t inputs, outputs, gates;
    uint32_t *out;
    struct gate *gate;
};

static void *zeros(size_t count, size_t size)
{
    void *all = calloc(count + 1, size);
    if (!all) {
        fprintf(stderr, "out of memory\n");
        exit(1);
    }
    return all;
}

static void malformed(void)
{
    fprintf(stderr, "a malformed file\n");
    exit(1);
}

static uint32_t number(FILE *file)
{
    uint32_t value;
    if (fscanf(file, "%u", &value) != 1) malformed();
    return value;
}

static uint32_t delta(FILE *file)
{
    uint32_t value = 0;
    for (int shift = 0; shift < 35; shift += 7) {
        int byte = getc(file);
        if (byte == EOF) malformed();
        value |= (uint32_t)(byte & 127) << shift;
        if (byte < 128) return value;
    }
    malformed();
    return 0;
}

/* variable v of the file is signal v: inputs are the first ones in either form that is read here */
static struct netlist read_aiger(FILE *file)
{
    struct netlist net;
    char form[4];
    uint32_t variables, latches;
    if (fscanf(file, "%3s %u %u %u %u %u", form, &variables, &net.inputs, &latches, &net.outputs, &net.gates) != 6) malformed();
    int is_text = !strcmp(form, "aag");
    if (latches || variables != net.inputs + net.gates || (!is_text && strcmp(form, "aig"))) malformed();
    net.out = zeros(net.outputs, sizeof *net.out);
    net.gate = zeros(net.gates, sizeof *net.gate);
    for (uint32_t i = 0; is_text && i < net.inputs; i++)
        if (number(file) != 2 * (i + 1)) malformed();
    for (uint32_t k = 0; k < net.outputs; k++) net.out[k] = number(file);
    if (!is_text && getc(file) != '\n') malformed();
    for (uint32_t t = 0; t < net.gates; t++) {
        uint32_t defined = 2 * (net.inputs + 1 + t), a, b;
        if (is_text) {
            if (number(file) != defined) malformed();
            a = number(file);
            b = number(file);
        } else {
            a = defined - delta(file);
            b = a - delta(file);
        }
        if (a >= defined || b >= defined) malformed();
        net.gate[t] = (struct gate){a, b};
    }
    return net;
}

/* puts the gates by level, and those of one level in the file's order */
static void order(struct netlist *net)
{
    uint32_t first = net->inputs + 1, deepest = 0;
    uint32_t *level = zeros(first + net->gates, sizeof *level);
    for (uint32_t t = 0; t < net->gates; t++) {
        uint32_t a = level[net->gate[t].a / 2], b = level[net->gate[t].b / 2];
        level[first + t] = 1 + (a > b ? a : b);
        if (level[first + t] > deepest) deepest = level[first + t];
    }
    uint32_t *start = zeros(deepest + 2, sizeof *start), *signal = zeros(first + net->gates, sizeof *signal);
    for (uint32_t t = 0; t < net->gates; t++) start[level[first + t] + 1]++;
    for (uint32_t l = 1; l <= deepest + 1; l++) start[l] += start[l - 1];
    for (uint32_t s = 0; s < first; s++) signal[s] = s;
    for (uint32_t t = 0; t < net->gates; t++) signal[first + t] = first + start[level[first + t]]++;
    struct gate *ordered = zeros(net->gates, sizeof *ordered);
    for (uint32_t t = 0; t < net->gates; t++) {
        struct gate gate = net->gate[t];
        ordered[signal[first + t] - first] = (struct gate){
            2 * signal[gate.a / 2] + gate.a % 2,
            2 * signal[gate.b / 2] + gate.b % 2,
        };
    }
    for (uint32_t k = 0; k < net->outputs; k++) net->out[k] = 2 * signal[net->out[k] / 2] + net->out[k] % 2;
    free(net->gate);
    free(level);
    free(start);
    free(signal);
    net->gate = ordered;
}

static inline uint64_t literal_word(const uint64_t *values, uint32_t literal)
{
    return values[literal / 2] ^ (literal % 2 ? UINT64_MAX : 0);
}

/* as many words at once as the program takes; the compiler may use vectors for the inner loops */
enum { LANES = 8 };

static void simulate_block(const struct netlist *net, const uint64_t *inputs, size_t words, size_t word, uint64_t (*values)[LANES], uint64_t *outputs)
{
    memset(values[0], 0, sizeof values[0]);
    for (uint32_t i = 0; i < net->inputs; i++) memcpy(values[1 + i], inputs + i * words + word, sizeof values[0]);
    uint64_t (*made)[LANES] = values + 1 + net->inputs;
    for (uint32_t t = 0; t < net->gates; t++) {
        const uint64_t *a = values[net->gate[t].a / 2], *b = values[net->gate[t].b / 2];
        uint64_t flip_a = net->gate[t].a % 2 ? UINT64_MAX : 0, flip_b = net->gate[t].b % 2 ? UINT64_MAX : 0;
        uint64_t block[LANES];
        for (int lane = 0; lane < LANES; lane++) block[lane] = (a[lane] ^ flip_a) & (b[lane] ^ flip_b);
        memcpy(made[t], block, sizeof block);
    }
    for (uint32_t k = 0; k < net->outputs; k++)
        for (int lane = 0; lane < LANES; lane++)
            outputs[k * words + word + lane] = values[net->out[k] / 2][lane] ^ (net->out[k] % 2 ? UINT64_MAX : 0);
}

static void simulate_row(const struct netlist *net, const uint64_t *inputs, size_t words, size_t word, uint64_t *values, uint64_t *outputs)
{
    values[0] = 0;
    for (uint32_t i = 0; i < net->inputs; i++) values[1 + i] = inputs[i * words + word];
    uint64_t *made = values + 1 + net->inputs;
    for (uint32_t t = 0; t < net->gates; t++)
        made[t] = literal_word(values, net->gate[t].a) & literal_word(values, net->gate[t].b);
    for (uint32_t k = 0; k < net->outputs; k++) outputs[k * words + word] = literal_word(values, net->out[k]);
}

int main(int count, char **words_given)
{
    if (count != 4) {
        fprintf(stderr, "usage: simulate FILE WORDS ROUNDS\n");
        return 2;
    }
    FILE *file = fopen(words_given[1], "rb");
    if (!file) malformed();
    struct netlist net = read_aiger(file);
    fclose(file);
    order(&net);
    size_t words = strtoull(words_given[2], 0, 10), rounds = strtoull(words_given[3], 0, 10);
    uint64_t *inputs = zeros(net.inputs * words, sizeof *inputs), *outputs = zeros(net.outputs * words, sizeof *outputs);
    uint64_t *values = zeros(1 + net.inputs + net.gates, sizeof *values);
    uint64_t (*blocks)[LANES] = zeros(1 + net.inputs + net.gates, sizeof *blocks);
    uint64_t state = 1, sum = 0;
    for (size_t round = 0; round < rounds; round++) {
        for (size_t k = 0; k < net.inputs * words; k++) {
            state = state * 6364136223846793005u + 1442695040888963407u;
            inputs[k] = state ^ state >> 29;
        }
        size_t word = 0;
        for (; word + LANES <= words; word += LANES) simulate_block(&net, inputs, words, word, blocks, outputs);
        for (; word < words; word++) simulate_row(&net, inputs, words, word, values, outputs);
        for (size_t k = 0; k < net.outputs * words; k++) sum ^= outputs[k];
    }
    printf("%016llx\n", (unsigned long long)sum);
    return 0;
}
