/* The workloads of crates/call_bench over Berkeley DB 5.3, by calls.
 *
 *     gcc -O2 -o bdb_calls bdb_calls.c -ldb
 *     bdb_calls WORKLOAD N FOLDER
 *
 * The environment is private and transactional, with a cache of 64 MiB, a log buffer of 1 MiB and log files of 10,000,000 bytes. It is
 * recovered when it is opened, and a checkpoint is made when it is closed. */
#include <db.h>
#include <stdint.h>
#include <stdio.h>
#include <stdlib.h>
#include <string.h>

#define FEW 1000

static DB_ENV *env;
static DB *db;

static void check(int result, const char *what)
{
	if (result) {
		fprintf(stderr, "bdb_calls: %s: %s\n", what, db_strerror(result));
		exit(1);
	}
}

/* Keys and data as the program has them. */
static uint64_t mix(uint64_t number)
{
	uint64_t z = number + 0x9e3779b97f4a7c15u;
	z = (z ^ (z >> 30)) * 0xbf58476d1ce4e5b9u;
	z = (z ^ (z >> 27)) * 0x94d049bb133111ebu;
	return z ^ (z >> 31);
}

static void put_number(unsigned char *out, uint64_t number)
{
	for (int i = 0; i < 8; i++)
		out[i] = number >> (56 - 8 * i);
}

static uint64_t draw(uint64_t n, uint64_t bound)
{
	return bound ? mix(n ^ ((uint64_t)1 << 63)) % bound : 0;
}

static void open_all(const char *folder)
{
	check(db_env_create(&env, 0), "environment");
	check(env->set_cachesize(env, 0, 64 << 20, 1), "cache");
	check(env->set_lk_max_locks(env, 200000), "locks");
	check(env->set_lk_max_objects(env, 200000), "objects");
	check(env->set_lg_bsize(env, 1 << 20), "log buffer");
	check(env->set_lg_max(env, 10000000), "log files");
	check(env->open(env, folder, DB_CREATE | DB_INIT_LOCK | DB_INIT_LOG | DB_INIT_MPOOL | DB_INIT_TXN | DB_PRIVATE | DB_RECOVER, 0644), "open");
	check(db_create(&db, env, 0), "database");
	check(db->open(db, NULL, "t.db", NULL, DB_BTREE, DB_CREATE | DB_AUTO_COMMIT, 0644), "open database");
}

static void close_all(void)
{
	check(db->close(db, 0), "close database");
	check(env->txn_checkpoint(env, 0, 0, DB_FORCE), "checkpoint");
	check(env->close(env, 0), "close");
}

static void put(DB_TXN *txn, uint64_t name, uint64_t value)
{
	unsigned char key[8], data[32];
	DBT k = { .data = key, .size = sizeof key }, v = { .data = data, .size = sizeof data };
	put_number(key, mix(name));
	for (uint64_t i = 0; i < 4; i++)
		put_number(data + 8 * i, mix(value ^ ((i + 1) << 56)));
	check(db->put(db, txn, &k, &v, 0), "put");
}

static uint64_t get(DB_TXN *txn, uint64_t name)
{
	unsigned char key[8], data[64];
	DBT k = { .data = key, .size = sizeof key }, v = { .data = data, .ulen = sizeof data, .flags = DB_DBT_USERMEM };
	put_number(key, mix(name));
	int result = db->get(db, txn, &k, &v, 0);
	if (result != DB_NOTFOUND)
		check(result, "get");
	return result == 0;
}

static DB_TXN *begin(uint32_t flags)
{
	DB_TXN *txn;
	check(env->txn_begin(env, NULL, &txn, flags), "begin");
	return txn;
}

static uint64_t scan(uint64_t most)
{
	unsigned char key[64], data[64];
	DBT k = { .data = key, .ulen = sizeof key, .flags = DB_DBT_USERMEM }, v = { .data = data, .ulen = sizeof data, .flags = DB_DBT_USERMEM };
	DB_TXN *txn = begin(0);
	DBC *cursor;
	uint64_t found = 0;
	check(db->cursor(db, txn, &cursor, 0), "cursor");
	while (found < most && cursor->get(cursor, &k, &v, DB_NEXT) == 0)
		found++;
	check(cursor->close(cursor), "close cursor");
	check(txn->commit(txn, 0), "commit");
	return found;
}

static uint64_t run(const char *workload, uint64_t number)
{
	uint64_t found = 0;
	if (!strcmp(workload, "bulk")) {
		DB_TXN *txn = begin(DB_TXN_SYNC);
		for (uint64_t i = 0; i < number; i++, found++)
			put(txn, i, i);
		check(txn->commit(txn, 0), "commit");
	} else if (!strcmp(workload, "nosync") || !strcmp(workload, "overwrite")) {
		uint64_t keys = strcmp(workload, "nosync") ? FEW : number;
		for (uint64_t i = 0; i < number; i++, found++) {
			DB_TXN *txn = begin(DB_TXN_NOSYNC);
			put(txn, i < keys ? i : draw(i, keys), i);
			check(txn->commit(txn, 0), "commit");
		}
	} else if (!strcmp(workload, "autosync")) {
		for (uint64_t i = 0; i < number; i++, found++)
			put(NULL, i, i);
	} else if (!strcmp(workload, "reads")) {
		DB_TXN *txn = begin(DB_READ_COMMITTED);
		for (uint64_t i = 0; i < number; i++)
			found += get(txn, draw(i, number));
		check(txn->commit(txn, 0), "commit");
	} else if (!strcmp(workload, "reads_auto")) {
		for (uint64_t i = 0; i < number; i++)
			found += get(NULL, draw(i, number));
	} else if (!strcmp(workload, "scan")) {
		found = scan(number);
	}
	return found;
}

int main(int argc, char **argv)
{
	if (argc != 4) {
		puts("bdb_calls WORKLOAD N FOLDER");
		return 2;
	}
	open_all(argv[3]);
	uint64_t found = run(argv[1], strtoull(argv[2], NULL, 10));
	close_all();
	printf("%llu\n", (unsigned long long)found);
	return 0;
}
