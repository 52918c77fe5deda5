"""Bugs of the kind that people make, each with what has to see it: `tools/check --plants` plants them in copies of the tree.

It is no tool by itself. A plant is changed text of files, or calls of the system that are preloaded into the program. Plants of changed sources that have
the same `build` are built together, unproved, since each is seen by another check, or in other words. `part` is the part of tools/check that has to
fail, or `rt ci`, which plays the tests; `command` is what of it sees this plant, and `says` what it prints then. Plants of time and of processor time may be missed on a busy machine: there
a busy loop gets few processors, and ten thousand tries take seconds.
"""

from __future__ import annotations

import hashlib
import os
import re
import shlex
import shutil
import subprocess
import tempfile
import time
from concurrent.futures import ThreadPoolExecutor
from pathlib import Path

import planted
from planting import BUILDING, HEAD, Plant, edit

TOP = Path(__file__).resolve().parent.parent
NET, SERVE = "crates/linda_net", "crates/linda_serve/src/serving"
PYTHON, NODE, C = "clients/python", "clients/node", "clients/c"
SOCKETS, COUNTS, RATIOS, SIMULATE = "tools/sockets", "tools/counts", "tools/ratios", "tools/simulate 150"
ALL = "for key in 0..self.connections.capacity() {\n            if let Some(connection) = self.connections.get_mut(key) {\n                "
SOME = ALL.replace("capacity()", "len()")
# What plays tests that it builds: of files as disks, and of servers and sessions with each allocation refused.
FILES, REFUSED, IN_ONE = f"{BUILDING[0]} linda_test_code_libraries files", *BUILDING[1:]
FILE_DISK, DEVICE = "crates/linda_disk/src/file_disk.rt", "tools/device"
KNOWN = FILE_DISK.replace("file_disk", "file_state")
INSIDE = ("inside", IN_ONE, "DIFFERS")
CLIENTS = ("inside", f"{IN_ONE} --clients", "DIFFERS")


WRITE = "ssize_t pwrite64(int file, const void *data, size_t size, off_t at) { %s return NEXT(pwrite64)(file, data, size, at); }"
# Each name of a call that the program may use.
TWICE = {"pwrite64": "pwrite", "pread64": "pread", "ftruncate64": "ftruncate", "open64": "open"}

PLANTS = [
    # ---- one process, by a seed
    edit("an Ask goes before what its client put", *INSIDE, "crates/linda_net_session/src/route.rt",
         "if deeds == 0 {\n                    place_ask", "if deeds < MOST_ASKED {\n                    place_ask"),
    edit("a second Hello is answered before what came before it", *INSIDE, "crates/linda_net_session/src/route.rt", "if asks == 0 && deeds == 0 {", "if asks == 0 {"),
    edit("a record is told without the sync after its gate", *INSIDE, "crates/linda_journal/src/gate.rt",
         "    write_synced(disk, gate, &[OPEN])\n", "    disk.write_at(gate, &[OPEN])\n"),
    edit("what is sent as a client leaves is not posted", *INSIDE, "crates/linda_shared/src/shared/group.rt",
         "leave(self.alloc, account);\n            locked.post_all(rt, self.alloc, posts);\n", "leave(self.alloc, account);\n            let _ = (rt, posts);\n"),
    edit("a tuple stays held for a client that is gone", *INSIDE, "crates/linda_store_step/src/soft.rt",
         "        let held = self.holds.of_client(alloc, client)?;\n", "        let mut held = self.holds.of_client(alloc, client)?;\n        let _ = held.pop();\n"),
    edit("a snapshot in steps misses what is done meanwhile", *INSIDE, "crates/linda_server/src/next.rt",
         "match writer.buffer_deeds(alloc, deeds) {", "match writer.buffer_deeds(alloc, &deeds[..0]) {"),
    edit("a lease runs although its client speaks", *INSIDE, f"{NET}_loops/src/connection/wire.rt",
         "                self.silence.end();\n                return ConnectionEvent::Message", "                return ConnectionEvent::Message"),
    edit("a connection that can be written again is not looked at", *INSIDE, f"{NET}_loops/src/sessions.rt",
         "is_writable && connection.has_unsent()", "is_writable && !connection.has_unsent()"),
    edit("the end of a connection is not read after its last bytes", *INSIDE, f"{NET}_loops/src/connection/wire.rt",
         "self.may_read = self.is_shut || len == buffer.len();", "self.may_read = len == buffer.len();"),
    edit("an account that leaves does not come back", *INSIDE, "crates/linda_shared_held/src/held/leave.rt",
         "    put_back(accounts, recall, account);\n    answer", "    let _ = (accounts, recall, account);\n    answer"),
    edit("replies go to the session before", *INSIDE, f"{NET}_loops/src/sessions/greetings.rt",
         "let is_kept = self.clients.insert(client, key).is_ok()", "let is_kept = (self.clients.contains_key(&client) || self.clients.insert(client, key).is_ok())",
         f"{NET}_loops/src/sessions/ends.rt", "            let _ = self.clients.remove(&client);\n            directory", "            directory"),
    edit("the number after the kept one is refused once more is known", *INSIDE, "crates/linda_book/src/class.rt",
         "} else if n == last && last > 0 {", "} else if n == last && last > 1 {"),
    # ---- clients over several servers, in one process
    edit("a client that took a tuple cancels nothing else", *CLIENTS, "crates/linda_client/src/client/receive.rt",
         "pending.commit(alloc, self.servers(), pending.spared(), ask.base, got)?", "pending.commit(alloc, 0, pending.spared(), ask.base, got)?"),
    edit("a client accepts a second offer beside the first", *CLIENTS, "crates/linda_client/src/client/receive.rt",
         "if pending.accepted().is_some() {\n            return self.keep", "if pending.accepted().is_some() && !ask.remove {\n            return self.keep"),
    # ---- what requests and waits cost
    Plant("each sync is made twice", "costs", "tools/costs calls_of_requests", "calls fdatasync",
          "int fdatasync(int file) { return NEXT(fdatasync)(file) == 0 ? NEXT(fdatasync)(file) : -1; }"),
    edit("a client of Python that waits is a busy loop", "costs", "tools/costs processor_while_waiting", "python took", f"{PYTHON}/linda_space/space.py",
         "awaited = selectors.EVENT_READ | (selectors.EVENT_WRITE if link.left else 0)", "awaited = selectors.EVENT_READ | selectors.EVENT_WRITE"),
    edit("a call that waits looks each millisecond", "costs", "tools/costs processor_while_waiting", "call took", "crates/linda_call/src/calling/caller.rt",
         "let pause = pause_until(self.ticks(rt)?, alarm);", "let pause = pause_until(self.ticks(rt)?, alarm).min(1);", build="edge"),
    # ---- who answers
    edit("HAProxy of a client takes any server of the authority", "beyond", "tools/beyond names", "HAProxy takes a server", "packaging/beyond/haproxy-client.cfg",
         " verifyhost linda", ""),
    edit("stunnel takes any server of the authority", "beyond", "tools/beyond names", "stunnel takes a server", "packaging/beyond/stunnel.conf", "checkHost = linda\n", ""),
    # ---- the disk
    Plant("a sync that failed is tried again, and believed", "simulate", SIMULATE, "seed",
          "int fdatasync(int file) { return NEXT(fdatasync)(file) == 0 ? 0 : NEXT(fdatasync)(file); }"),
    Plant("a bank is opened and told without its sync", "simulate", SIMULATE, "seed",
          "static char written[4096];\n"
          + WRITE % "if (file < 4096) written[file] = 1;"
          + "\nint close(int file) { if (file >= 0 && file < 4096) written[file] = 0; return NEXT(close)(file); }"
          "\nint fdatasync(int file) { return file < 4096 && !written[file] ? 0 : NEXT(fdatasync)(file); }"),
    Plant("what is after 65,536 bytes of a write lies one byte early", "sockets", f"{SOCKETS} large_records_over_a_kill", "FAILED",
          WRITE % "if (size > 65536) { NEXT(pwrite64)(file, data, 65536, at); return 65536 + NEXT(pwrite64)(file, (const char *)data + 65536,"
          " size - 65536, at + 65535); }"),
    Plant("the last byte of a write of more than 200,000 bytes is lost", "sockets", f"{SOCKETS} large_records_over_a_kill", "FAILED",
          WRITE % "if (size > 200000) return NEXT(pwrite64)(file, data, size - 1, at) + 1;"),
    Plant("a file is not cut", "counts", f"{COUNTS} lengths_after_a_start", "bytes after a start",
          "int ftruncate64(int file, off_t size) { (void)file, (void)size; return 0; }"),
    edit("the other file is not made as long as the bank", "counts", f"{COUNTS} lengths_after_a_start", "bytes after a start",
         f"{SERVE}/start.rt", "    fit_other(alloc, &mut server)?;\n", "", build="one"),
    # ---- a file as a disk: no contract says what its calls of the system do
    edit("nothing is ever synced", "device", f"{DEVICE} what_is_answered_is_synced", "something is not synced", FILE_DISK,
         "        match self.file.sync_data() {\n            Ok(()) => {\n                self.known.sync();\n                self.trouble = None;\n                Ok(())\n            }\n"
         "            Err(error) => Err(self.failed(FileCall::Sync, error)),\n        }\n", "        self.known.sync();\n        Ok(())\n", build="two"),
    edit("a sync that failed is taken for one that worked", "device", f"{DEVICE} each_call_that_fails_is_reported", r"fails \(sync\), and it ends|has not ended", FILE_DISK,
         "            Err(error) => Err(self.failed(FileCall::Sync, error)),\n", "            Err(_) => Ok(()),\n", build="one"),
    edit("a write that failed is taken for one that worked", "rt ci", FILES, "a_file_for_reading_only_takes_no_write ... FAILED", FILE_DISK,
         "            Err(error) => Err(self.failed(FileCall::Write, error)),\n", "            Err(_) => Ok(()),\n"),
    edit("a cut that failed is taken for one that worked", "rt ci", FILES, "a_file_for_reading_only_takes_no_write ... FAILED", FILE_DISK,
         "            Err(error) => Err(self.failed(FileCall::Cut, error)),\n", "            Err(_) => Ok(()),\n"),
    edit("a file is never cut", "rt ci", FILES, "a_file_has_what_was_written_when_it_is_opened_again ... FAILED", FILE_DISK,
         "        match self.file.set_len(len as u64) {\n            Ok(()) => Ok(()),\n            Err(error) => Err(self.failed(FileCall::Cut, error)),\n        }\n",
         "        Ok(())\n"),
    edit("nothing is written", "rt ci", FILES, "a_file_has_what_was_written_when_it_is_opened_again ... FAILED", FILE_DISK,
         "        match self.file.write_all_at(bytes, at as u64) {\n            Ok(()) => Ok(()),\n"
         "            Err(error) => Err(self.failed(FileCall::Write, error)),\n        }\n", "        Ok(())\n"),
    edit("the last failed call is named, not the first", "rt ci", FILES, "a_file_for_reading_only_takes_no_write ... FAILED", FILE_DISK,
         "if self.trouble.is_none() {", "if self.failures > 0 {"),
    edit("no failed call is named", "rt ci", FILES, "a_file_for_reading_only_takes_no_write ... FAILED", FILE_DISK,
         "if self.trouble.is_none() {", "if self.trouble.is_some() {"),
    edit("a file is opened without a sync", "device", f"{DEVICE} what_a_kill_left_is_synced", "it reads what is not synced", KNOWN,
         "    if file.sync_data().is_err() {\n        return Err(DiskFault::Device);\n    }\n", "", build="one"),
    edit("a file that cannot be synced is opened", "rt ci", FILES, "a_device_that_cannot_be_synced_is_no_disk ... FAILED", KNOWN,
         "    if file.sync_data().is_err() {\n        return Err(DiskFault::Device);\n    }\n", "    let _ = file.sync_data().is_err();\n"),
    edit("nothing is read of a file", "rt ci", FILES, "a_file_has_what_was_written_when_it_is_opened_again ... FAILED", KNOWN,
         "    match file.read_exact_at(&mut piece, at as u64) {\n        Ok(()) => Ok(piece),\n        Err(_) => Err(DiskFault::Device),\n    }\n", "    let _ = (file, at);\n    Ok(piece)\n"),
    # ---- memory that is refused
    edit("a tuple that could not be put aside is taken", "refused growths, tests", f"{REFUSED} durable", "server faults: growth",
         "crates/linda_snap/src/snapshot_encoder.rt", "        let copy = tuple.try_clone(alloc)?;\n        self.aside.insert(id, copy)?;\n        Ok(())\n",
         "        if let Ok(copy) = tuple.try_clone(alloc) {\n            let _ = self.aside.insert(id, copy).is_ok();\n        }\n        Ok(())\n"),
    edit("deeds that could not be noted are taken for noted", "refused growths, tests", f"{REFUSED} durable", "server faults: growth",
         "crates/linda_snap/src/bank_writer.rt", "        self.since.extend(&bytes)?;\n", "        let _ = self.since.extend(&bytes).is_ok();\n"),
    edit("records that could not be spelled are taken for written", "refused growths, tests", f"{REFUSED} durable", "server faults: growth",
         "crates/linda_journal/src/bank.rt", "        let bytes = spell_all(alloc, self.form, deeds, len)?;\n",
         "        let Ok(bytes) = spell_all(alloc, self.form, deeds, len) else {\n            return Ok(());\n        };\n"),
    edit("a server goes on after a snapshot that could not begin", "refused growths, tests", f"{REFUSED} durable", "server faults: growth",
         "crates/linda_server/src/durable/steps.rt", "                if fault == ServeFault::Full {\n", "                if fault != ServeFault::Disk {\n"),
    edit("a server goes on after a step that failed", "refused growths, tests", f"{REFUSED} sessions snapshots", "a_snapshot_in_steps_ends_or_is_given_up: growth",
         "crates/linda_server/src/durable/steps.rt", "                Ok(None) => Ok(Progress::Done),\n                Err(fault) => {\n"
         "                    self.before = Moment::of(self.store.state());\n                    self.down = true;\n",
         "                Ok(None) => Ok(Progress::Done),\n                Err(fault) => {\n                    self.before = Moment::of(self.store.state());\n"),
    edit("a server goes on after a group for which memory ran out", "refused growths, tests", f"{REFUSED} sessions refused", "a_group_is_served_or_nobody_is_up: growth",
         "crates/linda_server/src/durable/serve.rt", "            return Err(ServeFault::Memory);\n", "            self.down = false;\n            return Err(ServeFault::Memory);\n"),
    edit("a copy is not made anew", "sockets", f"{SOCKETS} a_copy_while_banks_change", "FAILED", "examples/backup.sh", '[ "$(heads "$1")" != "$before" ]', "false"),
    # ---- what is left open, busy or in memory
    Plant("a connection over a unix socket leaves a descriptor", "counts", f"{COUNTS} files_of_a_server", "over a unix socket",
          "int accept4(int file, struct sockaddr *place, socklen_t *size, int flags) {\n    int new = NEXT(accept4)(file, place, size, flags), kind = 0;\n"
          "    socklen_t room = sizeof kind;\n    if (new >= 0 && getsockopt(new, SOL_SOCKET, SO_DOMAIN, &kind, &room) == 0 && kind == AF_UNIX) dup(new);\n"
          "    return new;\n}"),
    edit("the thread of --status waits for no time", "counts", f"{COUNTS} processor_at_rest", r"an idle server with --status \(loops\) took",
         "crates/linda_net_http/src/server.rt", "        } else {\n            QUIET\n        };", "        } else {\n            0\n        };", build="one"),
    edit("a busy loop while no file is left", "counts", f"{COUNTS} processor_at_rest", r"a server at its limit of files \(loops\) took",
         f"{NET}_marks/src/bounds.rt", "ACCEPT_PAUSE: u64 = 10;", "ACCEPT_PAUSE: u64 = 0;", build="one"),
    edit("a call waits busily", "counts", f"{COUNTS} processor_at_rest", "a call that waits took",
         "crates/linda_net_proxy/src/inbox.rt", "Duration::from_millis(pause),", "Duration::from_millis(0),", build="one"),
    edit("an idle connection keeps the room of its largest reply", "counts", f"{COUNTS} memory_of_idle_connections", "idle connections, each sent 131 KB",
         "crates/linda_net_session/src/outgoing.rt", "if left == 0 && self.out", "if self.gone > 0 && self.out", build="one"),
    edit("the bank that was read stays in memory", "counts", f"{COUNTS} memory_after_a_start", "after a start over",
         "crates/linda_disk/src/file_state.rt", "        self.front.truncate(most);\n        self.front.shrink_to_fit();\n", "        let _ = most;\n", build="one"),
    edit("the other bank stays in memory too", "counts", f"{COUNTS} memory_after_a_start", "after a start over",
         f"{SERVE}/store.rt", "        Ok(FileDisk::with_front(alloc, file)?)\n", "        Ok(FileDisk::new(alloc, file)?)\n", build="two"),
    edit("receipts are never forgotten", "counts", f"{COUNTS} memory_over_many_puts", "each taken, leave",
         f"{NET}_watch/src/looking.rt", "        shared.forget(rt);\n", "", build="one"),
    edit("a loop never forgets a client", "counts", f"{COUNTS} memory_of_clients_that_went", "that greeted and went leave",
         f"{NET}_loops/src/sessions/ends.rt", "            let _ = self.clients.remove(&client);\n            directory", "            directory", build="two"),
    edit("what says which loop has a client never forgets one", "counts", f"{COUNTS} memory_of_clients_that_went", "that greeted and went leave",
         f"{NET}_relays/src/loop_directory.rt", "            let _ = routes.remove(&client);\n", "            let _ = &mut routes;\n", build="one"),
    # ---- room ahead of records
    edit("no room is written ahead", "sockets", f"{SOCKETS} room_is_written_ahead", "nothing is written ahead",
         f"{NET}_watch/src/looking.rt", "        ahead.look(rt, shared);\n", "        let _ = &mut ahead;\n", build="two"),
    edit("a full disk has no limit", "sockets", f"{SOCKETS} a_disk_that_is_full", "FAILED",
         "crates/linda_shared_held/src/held/room.rt", "        let _ = server.set_limit(limit);\n", "", build="one"),
    # ---- the two loops
    edit("the other loop is not woken at a leave", "sockets", f"{SOCKETS} loops_wake_each_other", "has not sent what is due",
         f"{NET}_loops/src/service.rt", "shared.depart(rt, account, &mut sink);\n    wake_others(rt, &sink);\n", "shared.depart(rt, account, &mut sink);\n",
         build="one"),
    edit("leases are kept of as many keys as there are connections", "sockets", f"{SOCKETS} leases", "FAILED",
         f"{NET}_loops/src/sessions/ends.rt", f"{ALL}let holds_any", f"{SOME}let holds_any", build="one"),
    edit("a server that is down ends as many keys as there are connections", "sockets", f"{SOCKETS} connections_of_a_failed_device", "FAILED",
         f"{NET}_loops/src/sessions/ends.rt", f"{ALL}connection.end_with", f"{SOME}connection.end_with", build="one"),
    edit("a server that is down closes as many keys as there are connections", "sockets", f"{SOCKETS} a_failed_device_beside_a_peer_that_never_reads", "FAILED",
         f"{NET}_loops/src/sessions/ends.rt", f"{ALL}connection.fail", f"{SOME}connection.fail", build="two"),
    edit("connections are given up of as many keys as there are connections", "sockets", f"{SOCKETS} connections_that_are_given_up", "FAILED",
         f"{NET}_loops/src/sessions/ends.rt", f"{ALL}if connection.gives_up", f"{SOME}if connection.gives_up", build="two"),
    # ---- numbers
    edit("who was late in all is told of each minute", "sockets", f"{SOCKETS} logs_of_refusals", "late 0",
         f"{SERVE}/log.rt", 'self.number("late", more.late)', 'self.number("late", tally.late)', build="two"),
    edit("a snapshot for which there is no room is logged as taken", "sockets", f"{SOCKETS} logs_of_a_bank_without_room", "result taken",
         f"{NET}_watch/src/watcher.rt", "Err(SharedFault::Full) => Some(Notice::NoSnapshot(millis)),", "Err(SharedFault::Full) => Some(Notice::Snapshot(millis)),", build="two"),
    edit("greetings and malformed change places in the status", "status", "tools/status numbers_that_follow", "FAILED",
         "crates/linda_status/src/metric.rt", "Greetings => tally.turned.greetings", "Greetings => tally.turned.malformed",
         "crates/linda_status/src/metric.rt", "Malformed => tally.turned.malformed", "Malformed => tally.turned.greetings", build="one"),
    edit("full and toomany change places in the status", "status", "tools/status refusals_that_differ", "FAILED",
         "crates/linda_status/src/metric.rt", "Full => tally.refused", "Full => tally.turned.clients",
         "crates/linda_status/src/metric.rt", "TooMany => tally.turned.clients", "TooMany => tally.refused", build="one"),
    edit("ages of holds and of waits change places in the status", "status", "tools/status ages_that_follow", "FAILED",
         "crates/linda_status/src/metric.rt", "OldestWait => gauge.oldest_wait", "OldestWait => gauge.oldest_hold",
         "crates/linda_status/src/metric.rt", "OldestHold => gauge.oldest_hold", "OldestHold => gauge.oldest_wait", build="one"),
    edit("groups and their messages change places in the status", "status", "tools/status messages_in_groups", "FAILED",
         "crates/linda_status/src/metric.rt", "Groups => tally.groups", "Groups => tally.messages",
         "crates/linda_status/src/metric.rt", "Messages => tally.messages", "Messages => tally.groups", build="two"),
    edit("deeds and records change places in the status", "status", "tools/status numbers_that_follow", "FAILED",
         "crates/linda_status/src/metric.rt", "Deeds => gauge.deeds", "Deeds => gauge.records as u64",
         "crates/linda_status/src/metric.rt", "Records => gauge.records as u64", "Records => gauge.deeds", build="two"),
    # ---- when, and how long
    edit("a call gives a server up at once that is away", "sockets", f"{SOCKETS} waits_over_three_seconds", "FAILED",
         "crates/linda_net_proxy/src/link.rt", "                thread::sleep(rt, Duration::from_millis(1));\n                true", "                true", build="one"),
    Plant("replies wait for the acknowledgement of those before them", "ratios", f"{RATIOS} looks_at_once", "FAILED",
          "int setsockopt(int file, int level, int name, const void *value, socklen_t size) {\n"
          "    return level == IPPROTO_TCP && name == TCP_NODELAY ? 0 : NEXT(setsockopt)(file, level, name, value, size);\n}"),
    Plant("each sync takes 2 ms of processor more", "ratios", f"{RATIOS} puts_in_memory", "FAILED",
          "int fdatasync(int file) {\n    struct timespec began, now;\n    clock_gettime(CLOCK_MONOTONIC, &began);\n    do clock_gettime(CLOCK_MONOTONIC, &now);\n"
          "    while ((now.tv_sec - began.tv_sec) * 1000000000L + now.tv_nsec - began.tv_nsec < 2000000);\n    return NEXT(fdatasync)(file);\n}"),
    Plant("each sync waits for 20 ms before", "ratios", f"{RATIOS} puts_against_syncs", "FAILED",
          "int fdatasync(int file) { usleep(20000); return NEXT(fdatasync)(file); }"),
    edit("no snapshot is in steps", "ratios", f"{RATIOS} replies_during_a_snapshot", "FAILED", f"{NET}_watch/src/snapshots.rt", ".used < STEP {", ".used > 0 {", build="two"),
    edit("a snapshot takes its steps without a pause", "device", f"{DEVICE} others_have_the_server_between_steps", "the next one began at once",
         f"{NET}_watch/src/snapshots.rt", "            Ok(Progress::Going) => thread::sleep(rt, pause()),\n", "            Ok(Progress::Going) => {}\n", build="one"),
    edit("between two steps of a snapshot it is slept ten times as long", "device", f"{DEVICE} others_have_the_server_between_steps", "it was slept for more",
         f"{NET}_watch/src/snapshots.rt", "            Ok(Progress::Going) => thread::sleep(rt, pause()),\n",
         "            Ok(Progress::Going) => thread::sleep(rt, Duration::from_millis(10 * PAUSE)),\n", build="three"),
    edit("notices are looked for once a second", "device", f"{DEVICE} others_have_the_server_between_steps", "what is looked for is late",
         f"{NET}_watch/src/watcher.rt", "        thread::sleep(rt, look());\n    }", "        thread::sleep(rt, std::time::Duration::from_millis(1_000));\n    }", build="one"),
    edit("alarms of a call come up to 50 ms late", "ratios", f"{RATIOS} alarms_of_a_call", "FAILED",
         "crates/linda_net_proxy/src/inbox.rt", "Duration::from_millis(pause),", "Duration::from_millis(pause + 50),", build="two"),
    edit("each put is spelled a hundred times", "instructions", "bench/instructions", "instructions a put",
         "crates/linda_net_session/src/outgoing.rt", "        encode_reply(&mut self.out, reply)\n",
         "        for _ in 0..100 {\n            let mut spare = Vec::new(self.alloc);\n            let _ = encode_reply(&mut spare, reply);\n        }\n"
         "        encode_reply(&mut self.out, reply)\n", build="two"),
    edit("the first snapshot after one that was cut off is not put off", "sockets", f"{SOCKETS} a_snapshot_is_put_off", "a snapshot was taken",
         f"{SERVE}/start.rt", "put_off: Some(room_of(partial_bank))", "put_off: Some(room_of(partial_bank)).filter(|_| false)", build="two"),
    # ---- what a command does before it begins, and what is said of it
    edit("a call without a standard output puts its tuple", "sockets", f"{SOCKETS} calls_without_streams", "FAILED",
         "crates/linda/src/main.rt", "        Task::Call { .. } => true,\n", "        Task::Call { .. } => false,\n", build="two"),
    edit("a link to nothing is a bank that is missing", "sockets", f"{SOCKETS} banks_that_are_no_files", "FAILED: .*link to nothing", "crates/linda_serve/src/bank_file.rt",
         "        Ok(_) => Err(ServingFault::Disk),\n        Err(error) if error.kind() == ErrorKind::NotFound => Ok(()),",
         "        Ok(_) => Ok(()),\n        Err(error) if error.kind() == ErrorKind::NotFound => Ok(()),", build="two"),
    edit("the usage of serve has only a port", "sockets", f"{SOCKETS} refused_words", "FAILED", "crates/linda_args/src/command/serve.rt",
         "linda serve [OPTIONS] --socket <PATH> --dir <D>", "linda serve [OPTIONS] --port <P> --dir <D>", build="two"),
    edit("the charts of the status page go by answers", "status", "tools/status what_the_page_shows", "FAILED", "crates/linda_status/src/page.rt",
         "span(Math.round(time / 1000))", "span(past.length)", build="two"),
    # ---- the libraries
    edit("a hold is not asked for again after its server was away", "python", f"{PYTHON}/test_linda_space.py", "FAIL: test_each_call_that_waits",
         f"{PYTHON}/linda_space/machine.py", "        self.sent += packets\n", "        self.sent += [] if isinstance(self.task, Syncing) and self.task.is_hold else packets\n"),
    edit("a hold without a time is not asked for again after a stop", "simulate", SIMULATE, "waits for a job|have not come to rest",
         f"{PYTHON}/linda_space/machine.py", "        packets = [packet for packet in self.unanswered(self.task) if packet[0] == server]\n        self.sent += packets\n",
         "        packets = [packet for packet in self.unanswered(self.task) if packet[0] == server]\n"
         "        self.sent += [] if isinstance(self.task, Syncing) and self.task.is_hold else packets\n"),
    edit("what an interrupted take took goes to the next take", "python", f"{PYTHON}/test_linda_space.py Waits.test_ctrl_c_while_a_tuple_is_taken", "AssertionError",
         f"{PYTHON}/linda_space/machine.py", "if base.leaf.fits(had.tuple or ()):", "if had.tuple and had.tuple[0] == base.leaf.template[0]:"),
    edit("a call of Python takes 5 ms more", "ratios", f"{RATIOS} calls_of_python", "FAILED",
         f"{PYTHON}/linda_space/space.py", "        self._be_mine()\n        return self._drive(self._course(begin, timeout, is_again, offer, is_over))",
         "        self._be_mine()\n        time.sleep(0.005)\n        return self._drive(self._course(begin, timeout, is_again, offer, is_over))"),
    edit("Python waits for acknowledgements", "ratios", f"{RATIOS} calls_of_python", "FAILED",
         f"{PYTHON}/linda_space/links.py", "        stream.setsockopt(socket.IPPROTO_TCP, socket.TCP_NODELAY, 1)\n", ""),
    edit("Python greets a server that was away after 5 s", "ratios", f"{RATIOS} python_goes_on", "FAILED",
         f"{PYTHON}/linda_space/space.py", "link.pause = min(2 * link.pause, LONGEST_PAUSE)", "link.pause = 5.0"),
    edit("Python keeps all outcomes", "counts", f"{COUNTS} memory_of_python", "FAILED",
         f"{PYTHON}/linda_space/machine.py", "        outcome = self.outcome(sync, base, kind, got, value)\n",
         "        outcome = self.outcome(sync, base, kind, got, value)\n        self.__dict__.setdefault('kept', []).append(outcome)\n"),
    edit("a call of Python looks ten times whose space it is", "counts", f"{COUNTS} functions_of_python", "FAILED",
         f"{PYTHON}/linda_space/space.py", "        self._be_mine()\n        return self._drive(",
         "        for _ in range(10):\n            self._be_mine()\n        return self._drive("),
    edit("Node.js does not ask for a hold again after its server was away", "node", f"{NODE}/test_linda_space.mjs 'each call that waits'", "✖ each call that waits",
         f"{NODE}/lib/machine.mjs", "this.unanswered().filter(([other]) => other === server)", "this.unanswered().filter(([other]) => other === server && !this.task?.isHold)"),
    edit("a call of Node.js takes 5 ms more", "ratios, node", f"{RATIOS} calls_of_node", "FAILED",
         f"{NODE}/lib/space.mjs", "    async #call(begin, limits, ways = {}) {\n",
         "    async #call(begin, limits, ways = {}) {\n        await new Promise((done) => { setTimeout(done, 5); });\n"),
    edit("Node.js waits for acknowledgements", "ratios, node", f"{RATIOS} calls_of_node", "FAILED",
         f"{NODE}/lib/links.mjs", "host: '127.0.0.1', noDelay: true }", "host: '127.0.0.1', noDelay: false }"),
    edit("Node.js greets a server that was away after 5 s", "ratios, node", f"{RATIOS} node_goes_on", "FAILED",
         f"{NODE}/lib/space.mjs", "link.pause = Math.min(2 * link.pause, LONGEST_PAUSE);", "link.pause = 5_000;"),
    edit("Node.js listens to a signal for ever", "counts, node", f"{COUNTS} memory_of_node", "FAILED",
         f"{NODE}/lib/space.mjs", "                signal?.removeEventListener('abort', abort);\n", ""),
    edit("a code of the header is another", "c frames", f"{C}/test_frames 1", "error", f"{C}/linda.h", "LINDA_CODE_NO_HELLO = 12", "LINDA_CODE_NO_HELLO = 13"),
    edit("texts are compared up to their first zero", "c frames", f"{C}/test_frames 1", "texts with zeros", f"{C}/linda.h",
         "memcmp(value->text, pattern->text, value->size) == 0", "strncmp((const char *)value->text, (const char *)pattern->text, value->size) == 0"),
    # ---- tools/check itself
    edit("a part without its command passes in CI", "itself", "tools/check --itself", "without a compiler it ends with", "tools/check",
         "    results += [Result(part, False, 0, f\"there is no {', '.join(words)}\") for part, words in lacking.items() if is_ci]\n", ""),
    edit("a part that has not ended in time passes", "itself", "tools/check --itself", "is well: True", "tools/check",
         "        return Result(part, status == 0, seconds,", "        return Result(part, not status, seconds,"),
    # ---- pages and packages
    # (the parts of the old texts are apart here, so that each is in this file once)
    edit("a crate has a line more", "words", "tools/words", "linda_book: .* lines of code, and .* at most", "crates/linda_book/src/class.rt",
         "        Class::Fresh\n", "        let fresh = Class::Fresh;\n        fresh\n"),
    edit("the bound of a crate is raised without a reason", "words", "tools/words --write", "CHANGELOG.md has no line `- Larger: linda_book", "crates/linda_book/src/class.rt",
         "        Class::Fresh\n", "        let fresh = Class::Fresh;\n        fresh\n"),
    edit("a README does not say what its crate is for", "words", "tools/words", "linda_book/README.md: its first line is not one sentence",
         "crates/linda_book/README.md", "and the reply to it.\n", "and the reply to it:\n"),
    edit("a README names what is nowhere", "promises", "tools/promises --check", "nothing is named Book::keep_everything", "crates/linda_book/README.md",
         "`Book::keep`", "`Book::keep_everything`"),
    edit("a plant of a file that moved", "links", "tools/links", "has its old text 0 times", "tools/plants.py", '"crates/linda_disk/' 'src/file_state.rt"', '"crates/linda_disk/src/once.rt"'),
    edit("a mutant of a text that changed", "links", "tools/links", "audit/linda/.*has its old text 0 times", "crates/linda/src/main.rt",
         "Err(fault) => end(rt, fault, fault.status()),", "Err(fault) => end(rt, fault, { fault.status() }),"),
    edit("a byte of the session on the page is another", "vectors", "tools/vectors", "digits of the file that docs/PROTOCOL.md has not", "docs/PROTOCOL.md",
         "`03` `0000000000000001` `01` `020001610104` | Ask", "`03` `0000000000000001` `00` `020001610104` | Ask"),
    edit("a page that may have more words than at the last release", "words", "tools/words", "NOTES.md: it may have 3,100", "tools/words",
         '"docs/NOTES.md": 1_330', '"docs/NOTES.md": 3_100'),
    edit("a snapshot after 2,048 records", "said", "tools/said", "2,048", "docs/OPERATING.md", "by itself: after 1,024 records, or 32 MiB", "by itself: after 2,048 records, or 64 MiB"),
    edit("an option that is not there in a synopsis", "said", "tools/said", "--loops", "docs/COMMANDS.md", "[--log] [--lease S] [--socket PATH", "[--log] [--loops N] [--lease S] [--socket PATH"),
    edit("a status is another", "said", "tools/said", "damaged left O` has status 4", "docs/COMMANDS.md", "| 3 | `store: damaged left O`", "| 4 | `store: damaged left O`"),
    edit("a line is another", "said", "tools/said", "store: locked", "docs/COMMANDS.md", "| 3 | `store: in use` |", "| 3 | `store: locked` |"),
    edit("a default is another", "said", "tools/said", "660", "docs/COMMANDS.md", "its mode is 600, or MODE", "its mode is 660, or MODE"),
    edit("a lease is a second longer at most", "said", "tools/said", "after S to S", "docs/COMMANDS.md", "S + 3 seconds, and what", "S + 1 seconds, and what"),
    edit("a code of the page is another", "said", "tools/said", "Malformed", "docs/PROTOCOL.md", "| 9 | Malformed |", "| 8 | Malformed |"),
    edit("a unit starts the program with an option that is not there", "release", "tools/release --check", "has no --loops", "packaging/linda.service", "serve --dir", "serve --loops 2 --dir"),
    edit("a unit does not restart", "said", "tools/said", "on-abnormal, and", "packaging/linda.service", "Restart=on-abnormal", "Restart=no"),
    edit("no completion for fish in the package", "release", "tools/release --check", "a release has not package .*linda.fish", "tools/release",
         '        Entry(f"{share}/fish/vendor_completions.d/linda.fish", text("linda.fish")),\n', ""),
    edit("the program of the package may not be run", "release", "tools/release --check", "usr/bin/linda ends with", "tools/release",
         'Entry("usr/bin/linda", program.read_bytes(), True)', 'Entry("usr/bin/linda", program.read_bytes(), False)'),
    edit("the package makes no user", "release", "tools/release --check", "and it makes nobody", "tools/release", """SYSUSERS = 'u linda - "CML-Linda" /var/lib/linda\\n'""", "SYSUSERS = '# none\\n'"),
    *planted.PLANTS,
]


def misplaced() -> list[str]:
    """The plants whose command is not here, or of which an old text is not in its file exactly once, as the plants before it of the same build left it."""
    wrong, texts = [], {}
    for plant in PLANTS:
        command = plant.command.split()[0]
        if not (TOP / command).is_file() and not (TOP / f"{command}.c").is_file():
            wrong.append(f"plant `{plant.name}`: there is no {command}")
        if not plant.build:
            texts = {it: text for it, text in texts.items() if it[0]}
        for name, old, new in () if isinstance(plant.edits, str) else plant.edits:
            at = plant.build, name
            if at not in texts:
                texts[at] = (TOP / name).read_text() if (TOP / name).is_file() else ""
            if (count := texts[at].count(old)) != 1:
                wrong.append(f"plant `{plant.name}`: {name} has its old text {count} times: {old.strip().splitlines()[0]}")
            texts[at] = texts[at].replace(old, new)
    return wrong


def show(parts: list[str]) -> None:
    """Prints by part what it sees, by which command."""
    for part in dict.fromkeys(it.part for it in PLANTS if not parts or it.part in parts):
        for plant in PLANTS:
            if plant.part == part:
                print(f"{part}: {plant.name}: {plant.command}{' (something is built for it)' * plant.is_dear()}")


def said(*words: object, cwd: Path = TOP) -> str:
    return subprocess.run([str(it) for it in words], cwd=cwd, check=True, capture_output=True, text=True).stdout


def copy_of_tree(place: Path, program: Path) -> Path:
    """A copy of the tree as it is now, without what is built in it, and with this program in the place of the proved one."""
    said("git", "clone", "--quiet", "--shared", "--no-checkout", TOP, place)
    for name in said("git", "ls-files", "-z", "--cached", "--others", "--exclude-standard").split("\0"):
        if name and (TOP / name).is_file():
            (place / name).parent.mkdir(parents=True, exist_ok=True)
            shutil.copy2(TOP / name, place / name)
    for name in ("linda/out/linda", "linda_gate/out/linda_gate"):
        source = program if name == "linda/out/linda" else TOP / "crates" / name
        if source.is_file():
            (place / "crates" / name).parent.mkdir(parents=True, exist_ok=True)
            shutil.copy(source, place / "crates" / name)
    return place


def change(place: Path, plant: Plant) -> None:
    if isinstance(plant.edits, str):
        preload(place, plant.edits)
        return
    for name, old, new in plant.edits:
        text = (place / name).read_text()
        if text.count(old) != 1:
            raise ValueError(f"{plant.name}: {name} has {text.count(old)} times {old!r}")
        (place / name).write_text(text.replace(old, new))


def preload(place: Path, calls: str) -> None:
    """The program is begun with these calls before those of the system."""
    program, source, library = place / "crates/linda/out/linda", place / "plant.c", place / "plant.so"
    for long, short in TWICE.items():
        if f" {long}(" in calls:
            calls += f'\n__typeof__({long}) {short} __attribute__((alias("{long}")));'
    source.write_text(f"{HEAD}{calls}\n")
    said("cc", "-shared", "-fPIC", "-O1", "-o", library, source, "-ldl")
    program.rename(program.with_name("linda.real"))
    program.write_text(f'#!/bin/sh\nLD_PRELOAD="{library}${{LD_PRELOAD:+:$LD_PRELOAD}}" exec "{program}.real" "$@"\n')
    program.chmod(0o755)


def built(name: str, plants: list[Plant], program: Path, folder: Path) -> Path:
    """The program with all plants of this build; it is kept below `out` for the next run over the same sources."""
    place = copy_of_tree(folder / f"build-{name}", program)
    for plant in plants:
        change(place, plant)
    sources = [it for ending in ("rt", "antt") for it in sorted((place / "crates").rglob(f"*.{ending}"))]
    sum_of_all = hashlib.sha256(b"".join(it.read_bytes() for it in sources)).hexdigest()[:16]
    kept = TOP / f"crates/linda/out/plants/{name}-{sum_of_all}"
    if not kept.is_file():
        said(place / "tools/quick", kept)
    shutil.rmtree(place)
    return kept


def seen(plant: Plant, program: Path, folder: Path) -> tuple[bool, str]:
    """Whether the part sees it, and what it printed of it."""
    place = copy_of_tree(folder / re.sub(r"\W+", "-", plant.name), program)
    if not plant.build:
        change(place, plant)
    around = {**os.environ, "LINDA": str(place / "crates/linda/out/linda"), "PYTHONDONTWRITEBYTECODE": "1"}
    words = shlex.split(plant.command)
    try:
        run = subprocess.run([place / words[0], *words[1:]], cwd=place, env=around, stdin=subprocess.DEVNULL, stdout=subprocess.PIPE,
                             stderr=subprocess.STDOUT, text=True, errors="replace", timeout=900)
    except subprocess.TimeoutExpired:
        return False, "not at its end after 900 s"
    finally:
        shutil.rmtree(place, ignore_errors=True)
    lines = run.stdout.splitlines()
    found = [line for line in lines if re.search(plant.says, line)]
    return run.returncode != 0 and bool(found), f"status {run.returncode}: {(found or lines or [''])[-1][:300]}"


def play(program: Path, parts: list[str], is_long: bool, jobs: int) -> int:
    """Plants each of these parts, or of all; without `is_long` only those for which no program is built. How many were not seen."""
    chosen = [it for it in PLANTS if (is_long or not it.is_dear()) and (not parts or it.part in parts)]
    missed = 0
    with tempfile.TemporaryDirectory(prefix="plants-") as name, ThreadPoolExecutor(jobs) as lanes:
        folder = Path(name)
        names = dict.fromkeys(it.build for it in chosen if it.build)
        programs = {it: lanes.submit(built, it, [one for one in PLANTS if one.build == it], program, folder) for it in names}

        def one(plant: Plant) -> str:
            began = time.monotonic()
            is_seen, words = seen(plant, programs[plant.build].result() if plant.build else program, folder)
            return f"{plant.part}: {'seen' if is_seen else 'NOT SEEN'} in {time.monotonic() - began:.0f} s: {plant.name}: {words}"

        # (those of programs that are still to be built come last)
        for line in lanes.map(one, sorted(chosen, key=lambda it: (it.is_dear(), bool(it.build)))):
            missed += "NOT SEEN" in line
            print(line, flush=True)
    print(f"{len(chosen) - missed} plants seen, {missed} not")
    return missed
