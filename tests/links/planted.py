"""Faults that are planted in the carrier, and the check of carrying.py that has to find each."""

import os
import shutil
import subprocess

HERE = os.path.dirname(os.path.abspath(__file__))
CARRIER = os.path.join(HERE, "..", "..", "deploy", "carrier")
# What is planted: the check that finds it; then a file, its text, and the text in its place, once or more often.
FAULTS = {
    "any authority is believed": ("who_may_come", "links.c", "SSL_VERIFY_PEER | SSL_VERIFY_FAIL_IF_NO_PEER_CERT, NULL", "SSL_VERIFY_PEER | SSL_VERIFY_FAIL_IF_NO_PEER_CERT, yes", "links.c", "static SSL_CTX *new_context(void) {", "static int yes(int a, X509_STORE_CTX *b) { (void)a, (void)b; return 1; }\nstatic SSL_CTX *new_context(void) {"),
    "tenants come at the port for nodes": ("who_may_come", "links.c", "link->listener && link->listener->for_nodes == is_tenant(name)", "false"),
    "TLS 1.2 is taken": ("who_may_come", "links.c", "TLS1_3_VERSION", "TLS1_2_VERSION"),
    "one may have the node's own number": ("who_may_come", "links.c", "!strcmp(name, me)) return \"it has", "false) return \"it has"),
    "one who is denied stays": ("who_may_come", "links.c", "if (shown && is_new && is_denied(shown)) deny(link);", "if (false) deny(link);"),
    "one who is denied comes again": ("a_denied_one_stays_out", "links.c", "bool wrong = shown && is_denied(shown);", "bool wrong = false;"),
    "one who is gone is told so again and again": ("who_is_gone_is_told", "links.c", "if (!link->was_told && put(", "if (put("),
    "what one who is gone brings is not charged": ("who_is_gone_is_told", "links.c", "    charge(link->peer->queue, length + PRICE_OF_GONE", "    if (0) charge(link->peer->queue, length + PRICE_OF_GONE"),
    "lines of one who is gone are given": ("who_is_gone_is_told", "node.c", "is_tenant(name) && is_gone(name, length);", "false && is_gone(name, length);"),
    "anybody of the grid may stand at a node's address": ("who_is_dialed", "links.c", "if (link->host && strcmp(name, link->host->name))", "if (false)", "stream.c", "&& SSL_set1_host(it->ssl, host)", ""),
    "a part of a line is given": ("lines_are_whole", "links.c", "    if (stream->paused) paused--;", "    if (link->held && link->peer) lines(link, link->part, link->held);\n    if (stream->paused) paused--;", "links.c", "/* The end of a link */", "static void lines(struct link *link, const char *text, size_t length);"),
    "a line that is too long is given": ("lines_are_whole", "node.c", "strlen(queue->head) + body > longest", "false"),
    "a line that came with the handshake waits for the next one": ("a_first_line_behind_a_handshake", "stream.c", "    if (it->state == OPEN && !it->paused) it->readable(it);     /* (all may", "    /* (all may"),
    "what waits within TLS is forgotten": ("lines_are_whole", "links.c", "if (stream->more && !link->is_later)", "if (false)"),
    "an answer goes to all connections": ("answers_go_home", "links.c", "    if (session) only = peer->by_session[session];\n", "    (void)session;\n"),
    "an answer about a chunk goes to whom its session asked last": ("chunks_go_home", "links.c", "struct link *only = request && !of_room ? who_asked(peer, request) : NULL;", "struct link *only = NULL;\n    (void)who_asked;", "links.c", "(request && !of_room && !only && memcmp(body, \"refused \", 8))", "false"),
    "who asks for a chunk takes its session's answers": ("chunks_go_home", "links.c", "size_t session = request && !(asks && has_asked(peer, request, link)) ? 0 : session_of(line,", "size_t session = session_of(line,"),
    "who asks how far a session came takes its answers": ("answers_go_home", "links.c", "bool asks = only_asks(line, many);", "bool asks = false;"),
    "who asks twice how far a session came is told nothing": ("answers_go_home", "links.c", "request && !(asks && has_asked(peer, request, link)) ? 0", "request ? 0"),
    "two who ask for one chunk are one": ("chunks_go_home", "links.c", "        peer->asked[at].link = NULL;\n        return link;", "        return link;"),
    "a look is taken for one of a session": ("chunks_go_home", "links.c", "{\"look\", 1, 2}, {\"looked\", 1, 2},", ""),
    "who asked for room last waits for who was not told": ("chunks_go_home", "links.c", "of_room = request && length > 5 && !memcmp(body, \"room \", 5);", "of_room = false;"),
    "a run that is forgotten is known by its floor": ("chunks_go_home", "links.c", "{\"forget\", 1, 3}", "{\"forget\", 1, 2}"),
    "lines are given however much waits for their tenant": ("a_tenant_who_takes_his_time", "links.c", "return queue->told > bound / 2;", "return false;"),
    "one who takes nothing holds up his tenant": ("a_tenant_who_takes_his_time", "links.c", "if (stream->since + STUCK > time) queue->told", "queue->told"),
    "a plan goes to one connection": ("answers_go_home", "links.c", "    if (*body == 'p') return 0;                 /* (numbers of a `plan` are no session) */\n", ""),
    "a node may say that it is another": ("answers_go_home", "node.c", "!memcmp(space + 1, me, own) && text[head - 1]", "text[head - 1]"),
    "a link that ended is not made again": ("nodes_are_linked", "links.c", "host->link = NULL, host->next_try", "host->next_try", "links.c", "host->is_there && !host->link && atoi", "host->is_there && !host->link && host->wait < 0.15 && atoi"),
    "all is read for a node that reads nothing": ("a_still_node", "links.c", "held(queue) > bound / 2 || ", "", "links.c", "(time > 0 && rests_until(queue, time) > 0)", "false"),
    "ticks are given to one that does not read": ("ticks", "node.c", "if (node_in.fd < 0 || tick_waits || read_by_node() < tick_end) return;", "if (node_in.fd < 0 || tick_waits) return;"),
    "a burst is given as far as the pipe takes it": ("a_burst", "node.c", "queue->given_to > read", "(int64_t)queue->given_to < 0"),
    "a tenant pays for his own lines alone": ("long_answers", "node.c", "charge(queue, length / PART, last_line);", ""),
    "letters cost nobody": ("long_answers", "node.c", "if (space) to = body, name = (size_t)(space - body);", "(void)space;"),
    "all waits for a slow reader": ("a_slow_reader", "links.c", "waits + length + 1 > bound", "waits + length + 1 > bound * 1000"),
    "a slow reader stays": ("a_slow_reader", "links.c", "(unwritten(stream) || stream->blocked) && time > stream->since + SLOW", "false", "stream.c", "    setsockopt(fd, IPPROTO_TCP, TCP_USER_TIMEOUT, &silence, sizeof silence);\n", "    (void)silence;\n"),
    "a tenant has as many connections as it likes": ("too_many", "links.c", "OF_A_TENANT = 32", "OF_A_TENANT = 320"),
    "silent connections keep others out": ("too_many", "links.c", "if (oldest) close_stream(&oldest->stream, \"too many have said nothing\");", "if (oldest) { close(fd); return; }"),
    "beginnings of lines have no bound": ("long_lines", "links.c", "others + room > bound + 2 * longest", "false"),
    "last lines are not waited for": ("its_end", "node.c", "    flush(&open_mask);\n", "    (void)flush;\n"),
    "a number with colons denies nobody": ("odd_files", "links.c", "(*line == ':' && many)", "false"),
    "an odd line takes the others away": ("odd_files", "links.c", "is no number of a certificate\", denied_file, number), good = false;\n            continue;", "is no number of a certificate\", denied_file, number), good = false;\n            break;"),
    "a file of hosts counts up to its wrong line": ("hosts_amid_a_write", "links.c", "for (int turn = 0; turn < 2 && good; turn++)", "for (int turn = 1; turn < 2 && good; turn++)"),
    "an authority that is gone is believed of those who are here": ("another_authority", "links.c", "is_new ? disbelief(shown, &link->stream)", "is_new ? NULL"),
    "strangers choose the group": ("costly_ones", "links.c", "!SSL_CTX_set1_groups_list(made, \"X25519:P-256:P-384\")", "false"),
    "new keys have no bound": ("costly_ones", "stream.c", "    if (it->odd_until > time + ODD) SSL_set_shutdown(ssl, SSL_RECEIVED_SHUTDOWN);\n", "    (void)ssl;\n", "stream.c", "if (it->odd_until > now() + ODD)", "if (false)"),
    "who came last holds a number": ("a_number_that_is_held_twice", "links.c", "if (began < host->latest) return", "if (false) return"),
    "who holds a number twice is not told": ("a_number_that_is_held_twice", "links.c", "    host->seconds++;\n", ""),
    "an older journal is heard": ("an_older_journal", "links.c", "it.operation < known->operation)", "false)"),
    "who has an older journal comes again": ("an_older_journal", "links.c", "if (host && host->is_older) return", "if (false) return"),
    "replies are taken for letters of a home": ("an_older_journal", "links.c", "{\"ask\", \"store \", \"confirm \"}", "{\"ask\", \"sto\", \"co\"}"),
    "all sessions of a tenant are one": ("an_older_journal", "links.c", "at->session == it->session && ", "", "links.c", "14695981039346656037u + it->session", "14695981039346656037u"),
    "a name has one address": ("a_name_of_two_addresses", "links.c", "if (!was_node) host->failures++;", ""),
    "a node that does not end is waited for": ("a_node_that_does_not_end", "node.c", "if (now() > until) say(", "if (false) say("),
    "lines of one who is denied are given": ("what_a_denied_one_said", "links.c", "    forget(peer->queue, held(peer->queue));\n", ""),
    "other ports are taken for one's own": ("hosts_amid_a_write", "links.c", "memcmp(before, own_ports, sizeof before)) say", "false) say"),
    "ports are compared with what was on the stack": ("its_own_ports", "links.c", "ports[2][6] = {{0}};", "ports[2][6];"),
    "a lost link is told to be up": ("metrics_are_true", "links.c", "peer && peer->many)", "peer != NULL)"),
    "a node that has ended is told to be ready": ("metrics_are_true", "node.c", "it->fd = -1, node_ready = false, greet_due = 0;", "it->fd = -1, greet_due = 0;"),
    "long lines cost all their bytes": ("metrics_are_true", "node.c", "bytes > LONGEST ? LONGEST + (bytes - LONGEST) / PART : bytes;", "bytes;"),
    "waits of a tenant are not counted": ("metrics_are_true", "node.c", "queue->tally->over_rate += queue->paid_until - over;", "(void)over;"),
    "a node greets before it is ready": ("forms_are_told", "node.c", "static double greet_due; ", "static double greet_due = 1; "),
    "a node never greets": ("forms_are_told", "node.c", "node_ready = true, greet_due = last_line + GREET_FIRST;", "node_ready = true;"),
    "a node greets at each turn": ("forms_are_told", "node.c", "greet_due = time + about(GREET);", "greet_due = time;"),
    "a tenant tells a form": ("forms_are_told", "node.c", "if (!is_tenant(queue->name) && queue != mine) hear_form", "if (queue != mine) hear_form"),
    "a form is what a line begins with": ("forms_are_told", "node.c", "        if (body[i] < '0' || body[i] > '9') return;\n", "        if (body[i] < '0' || body[i] > '9') break;\n"),
    "metrics are written in their place": ("metrics_are_whole", "metrics.c", "\"%s.new\", file", "\"%s\", file"),
    "metrics of a full disk are taken": ("metrics_are_whole", "metrics.c", "!fflush(out) && !ferror(out) && ", ""),
    "metrics that can't be written are told each time": ("metrics_are_whole", "metrics.c", "if (strcmp(why, told)) ", ""),
    "the key may be read by others": ("its_words", "links.c", "kind.st_mode & (S_IROTH | S_IWOTH)", "false"),
}
# Those that are tried where not all are
SOME = ["a tenant pays for his own lines alone", "who asks how far a session came takes its answers", "one who is denied comes again", "anybody of the grid may stand at a node's address", "a part of a line is given", "an answer goes to all connections", "what waits within TLS is forgotten"]


def built(folder, what, edits):
    """The carrier with a fault."""
    sources = os.path.join(folder, "sources")
    shutil.copytree(CARRIER, sources, ignore=shutil.ignore_patterns("carry-*", "__pycache__"))
    for name, old, new in zip(edits[::3], edits[1::3], edits[2::3]):
        path = os.path.join(sources, name)
        with open(path, encoding="utf-8") as file:
            text = file.read()
        if text.count(old) != 1:
            raise ValueError(f"{what}: {text.count(old)} times in {name}: {old}")
        with open(path, "w", encoding="utf-8") as out:
            out.write(text.replace(old, new))
    path = os.path.join(folder, "carry")
    done = subprocess.run(["make", "-s", "-C", sources, f"LINKS={path}", path, "WARNINGS=-std=c11", "CFLAGS=-O1", "LDFLAGS="], stderr=subprocess.PIPE, text=True)
    if done.returncode:
        raise ValueError(f"{what}: {done.stderr}")
    return path
