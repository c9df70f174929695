/* A client of NFS version 2 by libtirpc and the stubs of rpcgen: mounts, makes a file, writes it, reads it back, lists the
   root and takes the file away again.

       client PORT

   It makes two connections, one for MOUNT and one for NFS, to a port of this machine that is given: no port mapper is asked. */

#include <arpa/inet.h>
#include <rpc/rpc.h>
#include <stdio.h>
#include <stdlib.h>
#include <string.h>

#include "nfs.h"

static const char TEXT[] = "written by libtirpc\n";

static void stop(const char *what) {
    fprintf(stderr, "client: %s\n", what);
    exit(1);
}

static CLIENT *client_of(int port, unsigned long program, unsigned long version) {
    struct sockaddr_in address = {.sin_family = AF_INET, .sin_port = htons(port)};
    int socket = RPC_ANYSOCK;
    address.sin_addr.s_addr = htonl(INADDR_LOOPBACK);
    CLIENT *client = clnttcp_create(&address, program, version, &socket, 0, 0);
    if (client == NULL) {
        clnt_pcreateerror("client");
        exit(1);
    }
    client->cl_auth = authunix_create("tirpc", 0, 0, 0, NULL);
    return client;
}

static void *needed(CLIENT *client, void *result, const char *what) {
    if (result == NULL) {
        clnt_perror(client, what);
        exit(1);
    }
    return result;
}

static void mount_root(int port, nfs_fh root) {
    CLIENT *client = client_of(port, MOUNT_SERVICE, MOUNT_V1);
    nfs_path path = "/";
    mount_fhstatus *mounted = needed(client, mount1_mnt_1(&path, client), "MNT");
    if (mounted->status != 0) {
        stop("the root can't be mounted");
    }
    memcpy(root, mounted->mount_fhstatus_u.root, NFS_FHSIZE);
    needed(client, mount1_umnt_1(&path, client), "UMNT");
    clnt_destroy(client);
}

static void make(CLIENT *client, const nfs_fh root, nfs_fh file) {
    nfs_createargs args = {.where.name = "tirpc", .attributes = {0644, -1, -1, 0, {-1, -1}, {-1, -1}}};
    memcpy(args.where.dir, root, NFS_FHSIZE);
    nfs_diropres *made = needed(client, nfs2_create_2(&args, client), "CREATE");
    if (made->status != 0) {
        stop("the file isn't made");
    }
    memcpy(file, made->nfs_diropres_u.found.file, NFS_FHSIZE);
}

static void write_text(CLIENT *client, const nfs_fh file) {
    nfs_writeargs args = {.data = {sizeof TEXT - 1, (char *)TEXT}};
    memcpy(args.file, file, NFS_FHSIZE);
    nfs_attrstat *written = needed(client, nfs2_write_2(&args, client), "WRITE");
    if (written->status != 0 || written->nfs_attrstat_u.attributes.size != sizeof TEXT - 1) {
        stop("the file isn't written");
    }
}

static void read_text(CLIENT *client, const nfs_fh file) {
    nfs_readargs args = {.count = NFS_MAXDATA};
    memcpy(args.file, file, NFS_FHSIZE);
    nfs_readres *read = needed(client, nfs2_read_2(&args, client), "READ");
    nfs_readok *reply = &read->nfs_readres_u.reply;
    if (read->status != 0 || reply->data.data_len != sizeof TEXT - 1 || memcmp(reply->data.data_val, TEXT, sizeof TEXT - 1)) {
        stop("the file isn't read as it was written");
    }
}

static void list(CLIENT *client, const nfs_fh root) {
    nfs_readdirargs args = {.count = 4096};
    memcpy(args.dir, root, NFS_FHSIZE);
    nfs_readdirres *listed = needed(client, nfs2_readdir_2(&args, client), "READDIR");
    if (listed->status != 0 || !listed->nfs_readdirres_u.reply.eof) {
        stop("the root isn't listed");
    }
    for (nfs_entry *entry = listed->nfs_readdirres_u.reply.entries; entry != NULL; entry = entry->next) {
        printf("%u %s\n", entry->fileid, entry->name);
    }
}

static void take_away(CLIENT *client, const nfs_fh root) {
    nfs_dirop args = {.name = "tirpc"};
    memcpy(args.dir, root, NFS_FHSIZE);
    unsigned *removed = needed(client, nfs2_remove_2(&args, client), "REMOVE");
    if (*removed != 0) {
        stop("the file isn't taken away");
    }
}

int main(int count, char **words) {
    nfs_fh root, file;
    if (count != 2) {
        stop("usage: client PORT");
    }
    mount_root(atoi(words[1]), root);
    CLIENT *client = client_of(atoi(words[1]), NFS_SERVICE, NFS_V2);
    needed(client, nfs2_null_2(NULL, client), "NULL");
    make(client, root, file);
    write_text(client, file);
    read_text(client, file);
    list(client, root);
    take_away(client, root);
    clnt_destroy(client);
    return 0;
}
