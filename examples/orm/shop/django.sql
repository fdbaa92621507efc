-- What Django's ORM asks of the shop; before each statement the Python that it stands for.

-- Order.objects.filter(customer=42, status="paid")
SELECT "orders"."id", "orders"."number", "orders"."customer_id", "orders"."address_id", "orders"."status", "orders"."placed_on", "orders"."total_cents" FROM "orders" WHERE ("orders"."customer_id" = 42 AND "orders"."status" = 'paid');

-- Product.objects.select_related("category", "supplier").only("title", "category__slug", "supplier__name")
SELECT "products"."id", "products"."title", "products"."category_id", "products"."supplier_id", "categories"."id", "categories"."slug", "suppliers"."id", "suppliers"."name" FROM "products" INNER JOIN "categories" ON ("products"."category_id" = "categories"."id") LEFT OUTER JOIN "suppliers" ON ("products"."supplier_id" = "suppliers"."id");

-- Product.objects.annotate(by=F("supplier__name")).values_list("id", "title")
SELECT "products"."id", "products"."title" FROM "products" LEFT OUTER JOIN "suppliers" ON ("products"."supplier_id" = "suppliers"."id");

-- Category.objects.annotate(top=F("parent__parent__slug")).values("id", "slug", "parent__slug")
SELECT "categories"."id", "categories"."slug", T2."slug" FROM "categories" LEFT OUTER JOIN "categories" T2 ON ("categories"."parent_id" = T2."id") LEFT OUTER JOIN "categories" T3 ON (T2."parent_id" = T3."id");

-- Order.objects.filter(customer__in=Customer.objects.all()).values("id")
SELECT "orders"."id" FROM "orders" WHERE "orders"."customer_id" IN (SELECT U0."id" FROM "customers" U0);

-- Customer.objects.filter(country__code="NO").values_list("email", flat=True).distinct()
SELECT DISTINCT "customers"."email" FROM "customers" INNER JOIN "countries" ON ("customers"."country_id" = "countries"."id") WHERE "countries"."code" = 'NO';

-- Customer.objects.values_list("email", flat=True).distinct()
SELECT DISTINCT "customers"."email" FROM "customers";

-- Customer.objects.values_list("name", flat=True).distinct()
SELECT DISTINCT "customers"."name" FROM "customers";

-- Product.objects.filter(tags__name__in=["oak", "ash"]).distinct()
SELECT DISTINCT "products"."id", "products"."title" FROM "products" INNER JOIN "products_tags" ON ("products"."id" = "products_tags"."product_id") INNER JOIN "tags" ON ("products_tags"."tag_id" = "tags"."id") WHERE "tags"."name" IN ('oak', 'ash');

-- Product.objects.filter(tags__isnull=False).distinct()
SELECT DISTINCT "products"."id", "products"."title" FROM "products" INNER JOIN "products_tags" ON ("products"."id" = "products_tags"."product_id") WHERE "products_tags"."tag_id" IS NOT NULL;

-- Review.objects.filter(customer__isnull=False).values("id", "customer__name")
SELECT "reviews"."id", "customers"."name" FROM "reviews" INNER JOIN "customers" ON ("reviews"."customer_id" = "customers"."id") WHERE "reviews"."customer_id" IS NOT NULL;

-- Review.objects.annotate(slug=F("product__category__slug")).filter(rating__gte=4).values("id", "product__title")
SELECT "reviews"."id", "products"."title" FROM "reviews" INNER JOIN "products" ON ("reviews"."product_id" = "products"."id") INNER JOIN "categories" ON ("products"."category_id" = "categories"."id") WHERE "reviews"."rating" >= 4;

-- Review.objects.filter(product__category=4).values("id", "product__category__slug")
SELECT "reviews"."id", "categories"."slug" FROM "reviews" INNER JOIN "products" ON ("reviews"."product_id" = "products"."id") INNER JOIN "categories" ON ("products"."category_id" = "categories"."id") WHERE "products"."category_id" = 4;

-- LineItem.objects.filter(order__customer=42).values("product_id", "order__number")
SELECT "line_items"."product_id", "orders"."number" FROM "line_items" INNER JOIN "orders" ON ("line_items"."order_id" = "orders"."id") WHERE "orders"."customer_id" = 42;

-- Customer.objects.filter(id__in=Order.objects.values("customer"))
SELECT "customers"."id", "customers"."name" FROM "customers" WHERE "customers"."id" IN (SELECT U0."customer_id" AS "customer" FROM "orders" U0);

-- Product.objects.exclude(supplier=3)
SELECT "products"."id", "products"."title" FROM "products" WHERE NOT ("products"."supplier_id" = 3 AND "products"."supplier_id" IS NOT NULL);

-- StockMovement.objects.annotate(left=F("level__on_hand")).filter(change__lt=0).values("id", "change"), level being a ForeignObject of two columns
SELECT "stock_movements"."id", "stock_movements"."change" FROM "stock_movements" INNER JOIN "stock_levels" ON ("stock_movements"."warehouse" = "stock_levels"."warehouse" AND "stock_movements"."product_id" = "stock_levels"."product_id") WHERE "stock_movements"."change" < 0;

-- Payment.objects.filter(order__in=Order.objects.filter(customer__in=Customer.objects.filter(vip=1)))
SELECT "payments"."id", "payments"."gateway" FROM "payments" WHERE "payments"."order_id" IN (SELECT V0."id" FROM "orders" V0 WHERE V0."customer_id" IN (SELECT U0."id" FROM "customers" U0 WHERE U0."vip" = 1));

-- Order.objects.filter(lineitem__product__sku="K-7").distinct()
SELECT DISTINCT "orders"."id", "orders"."number" FROM "orders" INNER JOIN "line_items" ON ("orders"."id" = "line_items"."order_id") INNER JOIN "products" ON ("line_items"."product_id" = "products"."id") WHERE "products"."sku" = 'K-7';

-- Refused: Product.objects.filter(title__icontains="saw")
SELECT "products"."id", "products"."title" FROM "products" WHERE UPPER("products"."title"::text) LIKE UPPER('%saw%');

-- Refused: Order.objects.count()
SELECT COUNT(*) AS "__count" FROM "orders";

-- Refused: Order.objects.filter(customer=42).exists()
SELECT 1 AS "a" FROM "orders" WHERE "orders"."customer_id" = 42 LIMIT 1;

-- Refused: Product.objects.exclude(tags__name="oak")
SELECT "products"."id" FROM "products" WHERE NOT (EXISTS(SELECT 1 AS "a" FROM "products_tags" U1 INNER JOIN "tags" U2 ON (U1."tag_id" = U2."id") WHERE (U2."name" = 'oak' AND U1."product_id" = ("products"."id")) LIMIT 1));

-- Refused: Product.objects.filter(price_cents__gt=F("id") * 2)
SELECT "products"."id" FROM "products" WHERE "products"."price_cents" > ("products"."id" * 2);

-- Refused: Order.objects.filter(customer=42).select_for_update()
SELECT "orders"."id", "orders"."number" FROM "orders" WHERE "orders"."customer_id" = 42 FOR UPDATE;
